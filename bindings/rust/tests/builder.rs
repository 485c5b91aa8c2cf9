//! The builder: tables of examples/ by hand, what is an error and what is left to the library, and the script of tests/builders.sh.

use std::fmt::Write;
use std::{env, fs};
use vempaldi::{check, BuildFault, Builder, Operation, BODY_LENGTHS, BUILDER_BYTES};

const EXAMPLE: &[u8] = include_bytes!("../../../examples/example.table");
const RIVER: &[u8] = include_bytes!("../../../examples/river.table");

#[test]
fn the_example_is_built() {
    let mut builder = Builder::new();
    let [a0, a1, a2] = [12, 12, 12].map(|length| builder.array(length));
    builder.open_loop(1, 10, a0, 0);
    builder.read(a1, 0);
    builder.constant(1);
    builder.operation(Operation::Add);
    builder.open_loop(1, 10, a2, 0);
    builder.read(a0, -1);
    builder.read(a0, 1);
    builder.operation(Operation::Add);
    assert_eq!(builder.end().as_deref(), Ok(EXAMPLE));
}

/// A loop of the river over all its inner elements, with bounds of two types.
fn open_river_loop(builder: &mut Builder, destination: usize) {
    let (first, last): (usize, i64) = (1, 198);
    builder.open_loop(first, last, destination, 0);
}

/// array[i-1] - array[i+1], with offsets of two types.
fn difference(builder: &mut Builder, array: usize) {
    builder.read(array, -1_i8);
    builder.read(array, 1_u128);
    builder.operation(Operation::Subtract);
}

/// s[i] = (h[i-1] - h[i+1]) / 200
fn slope(builder: &mut Builder, s: usize, h: usize) {
    open_river_loop(builder, s);
    difference(builder, h);
    builder.constant(200_u8);
    builder.operation(Operation::Divide);
}

/// q[i] = q[i] * 9 / 10 + s[i] * 40
fn flow(builder: &mut Builder, q: usize, s: usize) {
    open_river_loop(builder, q);
    builder.read(q, 0);
    builder.constant(9);
    builder.operation(Operation::Multiply);
    builder.constant(10);
    builder.operation(Operation::Divide);
    builder.read(s, 0);
    builder.constant(40);
    builder.operation(Operation::Multiply);
    builder.operation(Operation::Add);
}

/// d[i] = (q[i-1] + 2 * q[i] + q[i+1]) / 4
fn smoothed_flow(builder: &mut Builder, d: usize, q: usize) {
    use Operation::{Add, Divide, Multiply};
    open_river_loop(builder, d);
    builder.read(q, -1);
    builder.constant(2);
    builder.read(q, 0);
    builder.operation(Multiply);
    builder.operation(Add);
    builder.read(q, 1);
    builder.operation(Add);
    builder.constant(4);
    builder.operation(Divide);
}

/// h[i] = h[i] + (d[i-1] - d[i+1]) / 50
fn height(builder: &mut Builder, h: usize, d: usize) {
    open_river_loop(builder, h);
    builder.read(h, 0);
    difference(builder, d);
    builder.constant(50);
    builder.operation(Operation::Divide);
    builder.operation(Operation::Add);
}

/// The numbers may be of any integer type, as a translator has them.
#[test]
fn the_river_is_built_from_numbers_of_other_types() {
    let mut builder = Builder::new();
    let [h, q, s, d] = [200_u64; 4].map(|length| builder.array(length));
    slope(&mut builder, s, h);
    flow(&mut builder, q, s);
    smoothed_flow(&mut builder, d, q);
    height(&mut builder, h, d);
    assert_eq!(builder.end().as_deref(), Ok(RIVER));
}

/// Each record has its kind and as many bytes behind it as its row says.
#[test]
fn every_record_has_the_length_of_its_kind() {
    let calls: [fn(&mut Builder); 7] = [
        |b| {
            b.array(1);
        },
        |b| b.open_loop(1, 2, 3, 4),
        |b| b.read(1, 2),
        |b| b.constant(1),
        |b| b.operation(1),
        |b| drop(b.end()),
        |b| b.statement(1, 2),
    ];
    for (call, kind) in calls.iter().zip(1..) {
        let mut builder = Builder::new();
        call(&mut builder);
        assert_eq!(usize::from(builder.bytes()[0]), kind);
        assert_eq!(builder.bytes().len(), 1 + BODY_LENGTHS[kind]);
    }
}

#[test]
fn the_first_error_stays_and_nothing_follows_it() {
    let mut builder = Builder::new();
    builder.constant(7);
    builder.read(0, 40_000);
    let error = builder.error().expect("no field holds 40,000");
    assert_eq!((error.record, error.fault), (1, BuildFault::Field));
    builder.array(4_294_967_296_u64);
    assert_eq!(builder.array(1), 1, "arrays are counted on");
    assert_eq!(builder.end(), Err(error));
    assert_eq!(builder.bytes(), [4, 7, 0, 0, 0]);
    assert_eq!(error.to_string(), "record 1 of the table cannot be written: a number does not fit its field");
}

/// A body of constants, sums of each with what waits before it, and constants that are left to wait.
fn constants(builder: &mut Builder, sums: usize, left: usize) {
    builder.constant(1);
    for _ in 0..sums {
        builder.constant(1);
        builder.operation(Operation::Add);
    }
    (0..left).for_each(|_| builder.constant(1));
}

/// The longest row of records that meets no ground: 16 arrays, 15 loops that are as long as can be, with four statements of 18 constants and 14
/// sums, and a last loop of 21 constants and 11 sums in four statements, of which the last leaves seven numbers waiting.
fn furthest() -> Builder {
    let mut builder = Builder::new();
    for _ in 0..16 {
        builder.array(1);
    }
    for number in 0..16 {
        let (sums, left) = if number < 15 { (14, 0) } else { (11, 6) };
        builder.open_loop(0, 0, number, 0);
        constants(&mut builder, sums, 0);
        for statement in 1..4 {
            builder.statement(number, 0);
            constants(&mut builder, 0, if statement == 3 { left } else { 0 });
        }
    }
    builder
}

/// Whatever does not fit, the bytes that are there decide: the library refuses them as it would the whole.
#[test]
fn the_room_holds_what_decides() {
    let fits = furthest();
    assert_eq!(fits.bytes().len(), 2_361);
    assert_eq!(BUILDER_BYTES, 2_375);

    let mut ended = fits.clone();
    let refusal = check(&ended.end().expect("there is room")).expect_err("seven numbers wait");
    assert_eq!((refusal.ground.number(), refusal.place), (6, 2_361));

    let mut longer = fits.clone();
    longer.open_loop(0, 0, 0, 0);
    longer.operation(Operation::Add);
    assert_eq!((longer.error(), longer.bytes().len()), (None, 2_375));
    let error = longer.end().expect_err("no room for a byte");
    // A loop has its own record, three of further statements and 32 items.
    assert_eq!((error.record, error.fault), (16 + 16 * 36 + 2, BuildFault::Room));
    let refusal = check(longer.bytes()).expect_err("seven numbers wait");
    assert_eq!((refusal.ground.number(), refusal.place), (6, 2_361));
    assert_eq!(error.to_string(), "record 594 of the table cannot be written: there is no room for it");
}

/// tests/builders.sh gives a script of calls in one file and takes the lines in another, as its programs in C and Fortran print them, and
/// compares them. Alone, this builds the script below.
#[test]
fn a_script_is_built() {
    let named = |name| env::var_os(name);
    let (Some(script), Some(lines)) = (named("VEMPALDI_BUILDER_SCRIPT"), named("VEMPALDI_BUILDER_LINES")) else {
        let script = "array 3\nloop 0 2 0 0\nread 0 0\noperation 5\nend\nread 256 0\nend\n";
        let table = "010300000002000000000200000000000003000000050506";
        assert_eq!(built(script), format!("0 5 24 x{table}\n1 0 0 x\n"));
        return;
    };
    let script = fs::read_to_string(script).expect("the script can be read");
    fs::write(lines, built(&script)).expect("the lines can be written");
}

/// A line for each table of a script: the error, the count of records, the count of bytes and, behind an x, the bytes in hexadecimal.
fn built(script: &str) -> String {
    let mut lines = String::new();
    let mut builder = Builder::new();
    let mut records = 0;
    for line in script.lines() {
        let mut words = line.split_whitespace();
        let name = words.next().expect("a call");
        let n: Vec<i64> = words.map(|word| word.parse().expect("a number")).collect();
        call(&mut builder, name, &n);
        records += usize::from(builder.error().is_none());
        if name == "end" {
            line_of(&builder, records, &mut lines);
            (builder, records) = (Builder::new(), 0);
        }
    }
    lines
}

fn call(builder: &mut Builder, name: &str, n: &[i64]) {
    match (name, n) {
        ("array", &[length]) => {
            builder.array(length);
        }
        ("loop", &[first, last, destination, offset]) => builder.open_loop(first, last, destination, offset),
        ("statement", &[array, offset]) => builder.statement(array, offset),
        ("read", &[array, offset]) => builder.read(array, offset),
        ("constant", &[value]) => builder.constant(value),
        ("operation", &[operation]) => builder.operation(operation),
        ("end", &[]) => drop(builder.end()),
        _ => panic!("{name} {n:?} is no call"),
    }
}

fn line_of(builder: &Builder, records: usize, lines: &mut String) {
    let error = match builder.error().map(|error| (error.fault, error.record)) {
        None => 0,
        Some((BuildFault::Field, record)) if record == records => 1,
        Some((BuildFault::Room, record)) if record == records => 2,
        other => panic!("{other:?}, and {records} records"),
    };
    write!(lines, "{error} {records} {} x", builder.bytes().len()).expect("a string");
    builder.bytes().iter().for_each(|byte| write!(lines, "{byte:02x}").expect("a string"));
    lines.push('\n');
}
