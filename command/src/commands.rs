//! The commands: names, options, what they do.

use crate::check;
use crate::draw;
use crate::help::{self, Help};
use crate::join;
use crate::make;
use crate::nearest::nearest;
use crate::options::Options;
use crate::outcome::{Failure, Outcome};
use crate::plan;
use crate::run;
use crate::text;
use crate::wording::quoted;

struct Command {
    name: &'static str,
    options: &'static [&'static str],
    work: fn(&Options) -> Result<Outcome, Failure>,
    help: Help,
}

const COMMANDS: [Command; 7] = [
    Command { name: "check", options: &["-q", "--raw"], work: check::check, help: help::CHECK },
    Command {
        name: "plan",
        options: &["-p", "--line", "--plan", "--write-plan", "-o", "--json", "--raw"],
        work: plan::plan,
        help: help::PLAN,
    },
    Command { name: "join", options: &["-o", "--raw"], work: join::join, help: help::JOIN },
    Command {
        name: "run",
        options: &["-p", "--line", "--plan", "-o", "--order", "--memory", "--values", "--raw"],
        work: run::run,
        help: help::RUN,
    },
    Command { name: "dump", options: &["--raw"], work: text::dump_files, help: help::DUMP },
    Command { name: "make", options: &["-o", "--raw"], work: make::make_file, help: help::MAKE },
    Command { name: "draw", options: &["-p", "--line", "--plan", "-o", "--raw"], work: draw::draw, help: help::DRAW },
];

const THERE_ARE: &str = "there are check, plan, join, run, dump, make and draw";

/// Does what the words behind the program's name say.
pub fn begin(words: &[String]) -> Result<Outcome, Failure> {
    let (first, own) = words.split_first().map_or(("", words), |(first, own)| (first.as_str(), own));
    let command = match (first, own) {
        ("--help" | "-h" | "help", []) => return help::print(),
        ("--version", []) => return help::version(),
        ("help", [name]) => return named(name).map_err(|failure| failure.with_help(""))?.help.print(),
        ("--help" | "-h" | "help" | "--version", _) => Err(Failure::Usage(format!("{first} stands alone"))),
        ("", []) => Err(Failure::Usage(format!("no command is given; {THERE_ARE}"))),
        _ => named(first),
    };
    let command = command.map_err(|failure| failure.with_help(""))?;
    if asks_for_help(own) {
        return command.help.print();
    }
    let options = Options::read(own).and_then(|options| options.only(command.options));
    options.and_then(|options| (command.work)(&options)).map_err(|failure| failure.with_help(&format!("{} ", command.name)))
}

fn asks_for_help(words: &[String]) -> bool {
    words.iter().take_while(|word| *word != "--").any(|word| word == "--help" || word == "-h")
}

fn named(name: &str) -> Result<&'static Command, Failure> {
    let names = COMMANDS.each_ref().map(|one| one.name);
    COMMANDS.iter().find(|one| one.name == name).ok_or_else(|| {
        let meant = nearest(name, &names).map_or(String::new(), |name| format!(" (is {name} meant?)"));
        Failure::Usage(format!("no command {}{meant}; {THERE_ARE}", quoted(name)))
    })
}
