//! `plan --json`: every object has the form of docs/plan.schema.json, and says what the listing and the raw answers say.

mod common;
#[path = "common/json.rs"]
mod json;
#[path = "common/lines.rs"]
mod lines;

use common::{bytes, fed, out_name, run, EXAMPLE};
use json::{Json, Schema};
use vempaldi_checks::damage;
use vempaldi_checks::encoder::encode;
use vempaldi_checks::random::Random;
use vempaldi_checks::tables::{self, LARGE, MIDDLE, SMALL};

/// As others read it.
fn schema() -> Schema {
    Schema { form: Json::read(&String::from_utf8(bytes("docs/plan.schema.json")).expect("text")), strict: false }
}

/// Nothing is printed that the schema does not name.
fn strict() -> Schema {
    Schema { strict: true, ..schema() }
}

/// The one object that is printed, which has the schema's form.
fn object(words: &[&str], input: &[u8]) -> Json {
    let told = fed(&[&["plan", "--json"], words].concat(), input);
    assert_eq!((told.err.as_str(), told.out.lines().count()), ("", 1), "{}", told.out);
    let object = Json::read(&told.out);
    schema().fits(&object).and_then(|()| strict().fits(&object)).unwrap_or_else(|wrong| panic!("{wrong}\n{}", told.out));
    assert_eq!(told.status, i32::from(*object.at("accepted") == Json::Truth(false)));
    object
}

/// The lines of a listing from an object.
fn listing(object: &Json) -> String {
    let mut lines = Vec::new();
    let mut line = |word: &str, fields: &[i64]| {
        let fields: Vec<String> = fields.iter().map(i64::to_string).collect();
        lines.push(format!("{word} {}\n", fields.join(" ")));
    };
    let of = |row: &Json, keys: &[&str]| -> Vec<i64> { keys.iter().map(|key| row.at(key).number()).collect() };
    for (k, row) in object.at("loops").list().iter().enumerate() {
        line("loop", &[&[k as i64], &of(row, &["shift", "peel"])[..]].concat());
    }
    for (b, row) in object.at("blocks").list().iter().enumerate() {
        line("block", &[&[b as i64], &of(row, &["first", "last"])[..]].concat());
    }
    for word in ["fused", "peeled"] {
        for row in object.at(word).list() {
            line(word, &of(row, &["processor", "loop", "from", "to"]));
        }
    }
    line("sweeps", &of(object.at("sweeps"), &["before", "after"]));
    lines.concat()
}

#[test]
fn objects_say_what_the_listing_says() {
    let mut random = Random::new(61);
    for round in 0..90 {
        let table = tables::aligned(&mut random, &[SMALL, MIDDLE, LARGE][round % 3]);
        let line = if round % 2 == 0 { 1 } else { random.between(2, 64) as u32 };
        let most = lines::most(&table, line);
        let count = random.between(1, i64::from(most)).to_string();
        let (encoded, line) = (encode(&table), line.to_string());
        let object = object(&["-", "-p", &count, "--line", &line], &encoded);
        assert_eq!(listing(&object), fed(&["plan", "--raw", "-", "-p", &count, "--line", &line], &encoded).out);
        assert_eq!((object.at("processors").number().to_string(), object.at("line").number().to_string()), (count, line));
        let numbers =
            |key: &str, field: &str| -> Vec<i64> { object.at(key).list().iter().map(|row| row.at(field).number()).collect() };
        let lengths: Vec<i64> = table.arrays.iter().map(|&length| length.into()).collect();
        let firsts: Vec<i64> = (0..lengths.len()).map(|at| lengths[..at].iter().sum()).collect();
        assert_eq!((numbers("arrays", "length"), numbers("arrays", "first")), (lengths.clone(), firsts));
        assert_eq!(object.at("elements").number(), lengths.iter().sum::<i64>());
        let bounds = |bound: fn(&vempaldi_checks::table::Loop) -> u32| table.loops.iter().map(|one| bound(one).into()).collect();
        let (first, last): (Vec<i64>, Vec<i64>) = (bounds(|one| one.first), bounds(|one| one.last));
        assert_eq!((numbers("loops", "first"), numbers("loops", "last")), (first, last));
        let sums = numbers("loops", "shift").into_iter().zip(numbers("loops", "peel")).map(|(shift, peel)| shift + peel);
        assert_eq!(Some(object.at("threshold").number()), sums.max());
        assert!(object.at("arrays").list().iter().all(|array| array.get("name").is_none()), "a table has no names");
    }
}

/// The raw answer's numbers, and the words that `check` prints.
#[test]
fn refused_tables_have_the_librarys_answer() {
    let mut random = Random::new(62);
    let mut refused = 0;
    for _ in 0..200 {
        let good = encode(&tables::any(&mut random, &SMALL));
        let table = [damage::field(&mut random, &good), damage::change_byte(&mut random, &good)].concat();
        let table = if random.chance(1, 2) { table } else { damage::rearrange(&mut random, &good) };
        let object = object(&["-", "-p2"], &table);
        let Some(refusal) = object.get("refusal") else { continue };
        let answer = fed(&["plan", "--raw", "-", "-p2"], &table).out;
        let number = refusal.at("number").number();
        let named: Vec<i64> = refusal.at("named").list().iter().map(Json::number).collect();
        let pair = if number == 9 { format!(" {} {}", named[0], named[1]) } else { String::new() };
        assert_eq!(answer, format!("refused {number} {}{pair}\n", refusal.at("place").number()));
        assert!(if number == 9 { named[0] < named[1] } else { named == [0, 0] });
        let words = fed(&["plan", "-", "-p2"], &table).err;
        assert_eq!(words.lines().next(), Some(format!("-: {}", refusal.at("message").text()).as_str()));
        let word = refusal.at("word").text();
        assert_eq!(word, vempaldi::Ground::of_number(number as u64).word());
        assert!(refusal.at("message").text().starts_with(&format!("refused {number} {word}")));
        assert!(refusal.get("line").is_none(), "a table has no lines");
        refused += 1;
    }
    assert!(refused > 100, "{refused}");
}

#[test]
fn a_text_has_names_and_places() {
    let names = |object: &Json| -> Vec<String> {
        object.at("arrays").list().iter().map(|array| array.at("name").text().to_string()).collect()
    };
    let river = object(&["examples/river.txt", "-p4"], b"");
    assert_eq!((river.at("file").text(), names(&river).join(" ")), ("examples/river.txt", "H Q S D".to_string()));
    assert_eq!(river.at("loops").list()[0].at("statement").text(), "S[i] = (H[i-1] - H[i+1]) / 200");
    let reach = object(&["examples/reach.txt", "-p4"], b"");
    assert_eq!(reach.at("loops").list()[1].at("statement").text(), "Q[i] = QN[i]; H[i] = HN[i]");
    let place = |object: &Json| (object.at("line").number(), object.at("column").number(), object.at("token").text().to_string());
    let refused = object(&["-", "-p2"], b"array H 12\n# \xc3\xa4\nloop 1 10 -> H[i]: 1 H[i+300] +\n");
    assert_eq!(place(refused.at("refusal")), (3, 25, "+300".to_string()));
    let wrong = object(&["-", "-p2"], "array H 12\nloop 1 10 -> H[i]: 1 \"\u{e4}\\\u{7}\" +\n".as_bytes());
    assert_eq!(place(wrong.at("error")), (2, 22, "\"\u{e4}\\\u{7}\"".to_string()));
    // The number of processors has no place in a text.
    let short = object(&["examples/river.txt", "-p", "64"], b"");
    assert_eq!((short.at("refusal").at("number").number(), short.at("refusal").get("line")), (11, None));
}

/// A line's length is what was asked for, also where it is refused, and 1 where none was; a refused table and a wrong text have it too.
#[test]
fn objects_say_how_long_a_line_is() {
    assert_eq!(object(&[EXAMPLE, "-p2"], b"").at("line").number(), 1);
    assert_eq!(object(&[EXAMPLE, "-p2", "--line", "5"], b"").at("line").number(), 5);
    let refused = object(&[EXAMPLE, "-p2", "--line", "4294967295"], b"");
    let refusal = refused.at("refusal");
    assert_eq!((refused.at("line").number(), refusal.at("number").number()), (4_294_967_295, 17));
    assert_eq!((refusal.at("word").text(), refusal.at("place").number(), refusal.get("line")), ("line", 0, None));
    assert_eq!(object(&["-", "-p2", "--line", "8"], b"\x06").at("line").number(), 8);
    assert_eq!(object(&["-", "-p2", "--line", "8"], b"loop").at("line").number(), 8);
}

/// Whether the plan is by hand stands in every object; its shifts, peels and threshold are those of the plan.
#[test]
fn objects_say_whose_plan_it_is() {
    let truth = |words: &[&str], input: &[u8]| object(words, input).at("by_hand") == &Json::Truth(true);
    assert!(!truth(&[EXAMPLE, "-p2"], b"") && !truth(&[EXAMPLE, "-p65"], b"") && !truth(&["-", "-p1"], b"loop"));
    let plan = ["-p2", "--plan", "examples/example.hand"];
    assert!(truth(&[&["-"], &plan[..]].concat(), b"\x06") && truth(&[&["-"], &plan[..]].concat(), b"loop"));
    let by_hand = object(&[&[EXAMPLE], &plan[..]].concat(), b"");
    assert_eq!((by_hand.at("by_hand"), by_hand.at("threshold").number()), (&Json::Truth(true), 3));
    assert_eq!(listing(&by_hand).lines().take(2).collect::<Vec<_>>(), ["loop 0 0 0", "loop 1 2 1"]);
    for (input, number, word, named) in [(&b"0 0\n0 1\n"[..], 20, "unmet", 1), (b"0 0\n", 19, "plan", 0)] {
        let refused = object(&[EXAMPLE, "-p2", "--plan", "-"], input);
        let refusal = refused.at("refusal");
        assert_eq!((refusal.at("number").number(), refusal.at("word").text(), refusal.at("place").number()), (number, word, 0));
        assert_eq!(refusal.at("named").list().iter().map(Json::number).collect::<Vec<_>>(), [named, 0]);
        assert_eq!(*refused.at("by_hand"), Json::Truth(true));
    }
}

#[test]
fn several_files_have_a_line_each_and_nothing_else_is_said() {
    let told = run(&["plan", "--json", "-p", "2", EXAMPLE, "README.md", "no-such-file", "examples/jacobi.txt"]);
    assert_eq!((told.status, told.err.lines().count()), (2, 1), "{}", told.err);
    assert!(told.err.starts_with("vempaldi: no-such-file: "), "{}", told.err);
    let objects: Vec<Json> = told.out.lines().map(Json::read).collect();
    let files: Vec<&str> = objects.iter().map(|one| one.at("file").text()).collect();
    assert_eq!(files, [EXAMPLE, "README.md", "examples/jacobi.txt"]);
    let accepted: Vec<bool> = objects.iter().map(|one| *one.at("accepted") == Json::Truth(true)).collect();
    assert_eq!(accepted, [true, false, true]);
}

/// In a directory every table has its object, refused or not.
#[test]
fn objects_go_into_a_directory() {
    let directory = out_name("objects");
    std::fs::create_dir(&directory).expect("made");
    let told = run(&["plan", "--json", "-p2", "-o", &directory, EXAMPLE, "README.md"]);
    assert_eq!((told.status, told.out.as_str(), told.err.as_str()), (1, "", ""));
    for (name, accepted) in [("example.json", true), ("README.json", false)] {
        let text = std::fs::read_to_string(format!("{directory}/{name}")).expect("written");
        assert_eq!(*Json::read(&text).at("accepted"), Json::Truth(accepted));
    }
    std::fs::remove_dir_all(&directory).expect("removed");
}

/// The value with a key more in each of the objects in it, one after the other.
fn with_a_key_more(value: &Json) -> Vec<Json> {
    match value {
        Json::Object(keys) => {
            let more = keys.clone().into_iter().chain([("more".to_string(), Json::Number(1))]).collect();
            let inner = keys.iter().flat_map(|(key, one)| with_a_key_more(one).into_iter().map(move |one| (key.clone(), one)));
            let inside = inner.map(|(key, one)| Json::Object(keys.clone().into_iter().chain([(key, one)]).collect()));
            std::iter::once(Json::Object(more)).chain(inside).collect()
        }
        Json::List(rows) => {
            let inner = rows.iter().enumerate().flat_map(|(at, one)| with_a_key_more(one).into_iter().map(move |one| (at, one)));
            inner.map(|(at, one)| Json::List([&rows[..at], &[one], &rows[at + 1..]].concat())).collect()
        }
        _ => Vec::new(),
    }
}

/// A new version may have more keys: who reads by the schema of this one is not to fail on them, wherever they stand.
#[test]
fn the_schema_is_open_to_keys_that_are_not_yet_known() {
    let counts = [(&[EXAMPLE, "-p2"][..], 14), (&[EXAMPLE, "-p65"], 2), (&["-", "-p1"], 2)];
    for (words, count) in counts {
        let more = with_a_key_more(&object(words, b"loop"));
        // Accepted, the whole, sweeps, 3 arrays, 2 loops, 2 blocks, 4 fused parts and 1 peeled one.
        assert_eq!(more.len(), count, "{words:?}");
        for one in more {
            schema().fits(&one).unwrap_or_else(|wrong| panic!("{wrong}\n{one:?}"));
            assert!(strict().fits(&one).is_err(), "{one:?}");
        }
    }
}

/// And a new ground has another number and word.
#[test]
fn the_schema_is_open_to_grounds_that_are_not_yet_known() {
    let told = run(&["plan", "--json", EXAMPLE, "-p65"]).out;
    for (number, word, fits) in
        [(18, "later", true), (15, "state", true), (0, "later", false), (18, "", false), (18, "La ter", false)]
    {
        let other =
            told.replacen("\"number\":10,\"word\":\"processors\"", &format!("\"number\":{number},\"word\":\"{word}\""), 1);
        assert_ne!(other, told);
        assert_eq!(schema().fits(&Json::read(&other)).is_ok(), fits, "{other}");
    }
}

/// Any key that is taken away or made another type makes an object that does not fit: the schema and its reader can say no.
#[test]
fn the_schema_refuses_what_is_not_an_object_of_it() {
    let schema = schema();
    for words in [&[EXAMPLE, "-p2"][..], &[EXAMPLE, "-p65"], &["-", "-p1"]] {
        let whole = object(words, b"loop");
        let Json::Object(keys) = &whole else { panic!("an object") };
        for key in keys.keys() {
            let mut less = keys.clone();
            less.remove(key);
            assert!(schema.fits(&Json::Object(less)).is_err(), "without {key}");
            let mut other = keys.clone();
            other.insert(key.clone(), Json::List(vec![Json::Truth(true)]));
            assert!(schema.fits(&Json::Object(other)).is_err(), "another {key}");
        }
    }
    for text in ["[]", "{}", "1", "\"\""] {
        assert!(schema.fits(&Json::read(text)).is_err(), "{text}");
    }
    let good = run(&["plan", "--json", EXAMPLE, "-p2"]).out;
    for (from, to) in [
        ("\"processors\":2", "\"processors\":65"),
        ("\"line\":1", "\"line\":0"),
        ("\"line\":1", "\"line\":65"),
        ("\"length\":12}", "\"length\":0}"),
        ("\"threshold\":2", "\"threshold\":-2"),
        ("\"to\":5}", "\"to\":131072}"),
        ("\"shift\":1,", ""),
        ("\"accepted\":true", "\"accepted\":false"),
    ] {
        assert!(good.contains(from), "{from}");
        assert!(schema.fits(&Json::read(&good.replacen(from, to, 1))).is_err(), "{to}");
    }
}
