//! The texts of --help: one of all, and one of each command, from the same parts.

use crate::batch;
use crate::outcome::{Failure, Outcome};

/// How a command is called, what it does and what its options mean, and which further parts its own help has.
pub struct Help {
    pub usage: &'static str,
    pub does: &'static str,
    pub options: &'static str,
    pub parts: &'static [&'static str],
}

pub const CHECK: Help = Help {
    usage: "vempaldi check FILE.. [-q] [--raw]",
    does: "is each table accepted? A line for each file",
    options: "  -q           say the refused ones alone\n",
    parts: &[REFUSED],
};

pub const PLAN: Help = Help {
    usage: "vempaldi plan FILE.. -p N [--line W] [--plan PLAN] [--write-plan OUT]
             [-o DIR] [--json] [--raw]",
    does: "the plan for N processors",
    options: "  -p N         how many processors, 1 to 64
  --line W     how many iterations store into one cache line, 1 to 64, and 1 if none is given;
               blocks begin on whole lines, which count from the least first index of all loops
  --plan PLAN  shifts and peels by hand, of one FILE, see below
  --write-plan OUT   write the plan's shifts and peels, those found or those of --plan, as text
               into OUT: a start for a plan by hand. OUT is none of the files to read, and is not
               touched where the plan is refused. Of one FILE, and not with -o
  -o DIR       a file in DIR for each table instead of printing: NAME.plan, with --json NAME.json,
               NAME being the file's name without directory and extension (stdin for -). Files of
               these names are removed first; a refused table has no NAME.plan
  --json       an object of JSON for each table, in a line of its own
",
    parts: &[LINES, BY_HAND, JSON],
};

pub const JOIN: Help = Help {
    usage: "vempaldi join LEFT RIGHT [-o OUT] [--raw]",
    does: "one table: left's loops, then right's, over the same arrays, in texts of the same names",
    options: "  -o OUT       where to write it, if not to the standard output; none of the files to read\n",
    parts: &[],
};

pub const RUN: Help = Help {
    usage: "vempaldi run FILE.. -p N [--line W] [--plan PLAN] [--order ORDER] [--memory MEMORY]
             [--values] [-o OUT] [--raw]",
    does: "runs on N processors, beside the plain run, and compares",
    options: "  -p N         how many processors, 1 to 64
  --line W     how many iterations store into one cache line, 1 to 64, and 1 if none is given
  --plan PLAN  shifts and peels by hand, of one FILE, see below
  --order ORDER, --memory MEMORY   see below
  --values     print the memory after the run
  -o OUT       write the memory after the run, of one FILE: binary64 numbers, little-endian; OUT is
               none of the files to read
",
    parts: &[BY_HAND, ORDERS, MEMORIES],
};

pub const DUMP: Help = Help {
    usage: "vempaldi dump FILE.. [--raw]",
    does: "tables as text, which make turns into the same bytes; a text with its own names",
    options: "",
    parts: &[TEXT],
};

pub const MAKE: Help = Help {
    usage: "vempaldi make FILE [-o OUT] [--raw]",
    does: "the table of a text",
    options: "  -o OUT       where to write it, if not to the standard output; none of the files to read\n",
    parts: &[TEXT],
};

pub const DRAW: Help = Help {
    usage: "vempaldi draw FILE -p N [--line W] [--plan PLAN] [-o OUT] [--raw]",
    does: "a picture of the plan in SVG: blocks across, loops down",
    options: "  -p N         how many processors, 1 to 64
  --line W     how many iterations store into one cache line, 1 to 64, and 1 if none is given;
               ticks show where longer lines begin, if there is room for them
  --plan PLAN  shifts and peels by hand, see below
  -o OUT       where to write it, if not to the standard output; none of the files to read
",
    parts: &[BY_HAND],
};

const ALL: [&Help; 7] = [&CHECK, &PLAN, &JOIN, &RUN, &DUMP, &MAKE, &DRAW];

const FILES: &str = "
FILE is a table or a text (vempaldi make --help describes texts): what has 'array' or 'loop' as its
first word outside comments is a text. One FILE, or PLAN, may be - for the standard input. With
several files a last line on the standard error counts them. -p2 is -p 2, --order=turns is --order
turns; behind -- all words are files.
";

const STATUS: &str = "
Exit status: 0 all accepted (run: and all memories agree), 1 something refused or different or a
text wrong (join: or names that differ), 2 usage or input/output error.
";

const REFUSED: &str = "
A refusal says its number and word, the record and the byte, and what is wrong there; of a text also
line, column and the line itself; 9 shows the loop with the two references that it names marked, 20
both loops with the references in question. Records, bytes, arrays, loops, statements, references
and processors count from 0, lines and columns of a text from 1.
REFUSALS.md has an example of each and what to do about it (in docs of the source tree, installed
in share/doc/vempaldi).
";

const LINES: &str = "
The lines of a plan:
  loop K SHIFT PEEL      block B FIRST LAST      sweeps BEFORE AFTER
  fused B K FROM TO      processor B runs this part of loop K before the barrier
  peeled B K FROM TO     and this part past it
";

const BY_HAND: &str = "
PLAN, a plan by hand, stands in place of the shifts and peels that are found. It is a text with a
line SHIFT PEEL for each loop, in table order, # to the end of a line being a comment:
  0 0        # loop 0
  2 1        # loop 1
or the same numbers in bytes, four each, the lowest first. Numbers are 0 to 10000, else it is
refused with 19. For each dependence the later loop's shift must be at least the earlier's plus the
backward amount, its peel at least the earlier's plus the forward amount, else it is refused with
20, which says the loops, the references and the least number that this dependence asks for. What
has no character but those of a text is one; a line of it that is not two numbers of at most
4294967295 is an input error.
";

const JSON: &str = "
plan --json: plan.schema.json has the form of the objects (in docs of the source tree, installed in
share/doc/vempaldi). A refused table and a wrong text have theirs too, with 'accepted' false; a file
that cannot be read has none.
";

const ORDERS: &str = "
ORDER, the processors in the order in which they step; when it is used up, the lowest that can step
does. 'idle' counts the numbers in it that name a processor with nothing to do, or none of the N.
  turns        0, 1, .. and again, a step each (if none is given)
  falling      the same from the highest down
  none         no order: each processor in turn as far as it can go
  random:SEED  any processor, each time anew; the same SEED gives the same order
  1,1,0,..     these (0 to 255)
  @FILE        the bytes of a file
";

const MEMORIES: &str = "
MEMORY, the numbers before the run:
  index        each element its own index in its array (if none is given)
  zero         0 throughout
  random:SEED  numbers of all kinds, infinities and not-a-numbers too
  @FILE        binary64 numbers, 8 bytes each, little-endian, the arrays in order
";

const RAW: &str = "
--raw: the standard output has the library's answers and nothing else, a line or several for each
file in the order given, without names. The standard error has usage and input/output errors alone
(and what is wrong with a text; join: and names that differ; run: and a memory that differs). A
refusal is one line:
  refused NUMBER PLACE          for 9: refused 9 LOOP LOWER HIGHER, two references of the loop;
                                for 20: refused 20 EARLIER LATER
Accepted:
  check, dump, make: accepted   (check -q: nothing; dump: no text)
  plan, draw                    the plan's lines
  run: idle N                   N being the idle count
  join: N                       the count of bytes written
join, make and draw then need -o OUT, a file, for what they make. --values, --json and plan's -o
are not for --raw.
";

const TEXT: &str = "
The text of a table, # to the end of a line being a comment:
  array H 100                                   an array's name and length; A0, A1, .. are fine
  loop 1 98 -> Q[i]: H[i-1] H[i+1] - 2 /        first, last, what is stored, the body in postfix
    -> S[i]: Q[i] 3 *                           a further statement of that loop, up to four in all
Items of a body: NAME[i], NAME[i+3], NAME[i-3], a whole number, + - * / on the last two, neg on the
last. A body may go on in further lines; a further statement begins a line of its own. What is wrong
is told as FILE:LINE:COLUMN.
";

/// Where the commands' options begin in the list of all commands.
const COLUMN: usize = 13;

fn all() -> String {
    let mut text = "vempaldi: plans for a run of parallel loops made into one (shift-and-peel)\n\n".to_string();
    for one in ALL {
        text += &format!("  {}\n{}{}\n", one.usage, " ".repeat(COLUMN), one.does);
    }
    text += "\nvempaldi COMMAND --help says a command's own part of this; vempaldi --version the versions.\n";
    text += &[FILES, STATUS, REFUSED].concat();
    for (title, one) in [("check", &CHECK), ("plan", &PLAN), ("run", &RUN), ("join, make, draw", &JOIN)] {
        text += &format!("\nOptions of {title}:\n{}", one.options);
    }
    text + &[LINES, BY_HAND, JSON, ORDERS, MEMORIES, RAW, TEXT].concat()
}

impl Help {
    pub fn print(&self) -> Result<Outcome, Failure> {
        let options = format!("\n{}  --raw        the library's answer alone, for scripts\n", self.options);
        let text = format!("{}\n{}\n{options}{}{FILES}{STATUS}{RAW}", self.usage, self.does, self.parts.concat());
        batch::print(text.as_bytes())?;
        Ok(Outcome::Good)
    }
}

pub fn print() -> Result<Outcome, Failure> {
    batch::print(all().as_bytes())?;
    Ok(Outcome::Good)
}

/// The command's version and that of the library in it.
pub fn version() -> Result<Outcome, Failure> {
    let library = vempaldi::version();
    let (major, minor, patch) = (library / 10_000, library / 100 % 100, library % 100);
    let command = env!("CARGO_PKG_VERSION");
    batch::print(format!("vempaldi {command}\nlibrary {major}.{minor}.{patch}\n").as_bytes())?;
    Ok(Outcome::Good)
}
