//! Each way to make a result that is not a number, and the edges of the
//! arithmetic: every pair of special numbers under every operation.

use crate::stop::{first_difference, same_bits, stop};
use vempaldi_checks::encoder::Encoder;
use vempaldi_checks::interpreter::{plain_run, STORED_NAN};
use vempaldi_checks::library_running as library;
use vempaldi_checks::outcome::ACCEPTED;

/// Zeros, ones, infinities, quiet and signalling NaNs with payloads, the
/// least and greatest of each kind; each is also taken with the other sign.
const SPECIAL: [u64; 14] = [
    0x0000_0000_0000_0000,
    0x0000_0000_0000_0001,
    0x000F_FFFF_FFFF_FFFF,
    0x0010_0000_0000_0000,
    0x3FF0_0000_0000_0000,
    0x3FF0_0000_0000_0001,
    0x3FD5_5555_5555_5555,
    0x4340_0000_0000_0001,
    0x7FEF_FFFF_FFFF_FFFF,
    0x7FF0_0000_0000_0000,
    0x7FF8_0000_0000_0000,
    0x7FF8_0000_0000_0123,
    0x7FF0_0000_0000_0001,
    0x7FF7_FFFF_FFFF_FFFF,
];

pub fn compare_all() {
    let mut numbers: Vec<u64> = SPECIAL.to_vec();
    numbers.extend(SPECIAL.map(|bits| bits | 1 << 63));
    let mut nans = 0;
    for &left in &numbers {
        nans += one_operand(left);
        for &right in &numbers {
            nans += two_operands(left, right);
        }
    }
    constants();
    inner_nan();
    println!("special numbers: {} pairs, {nans} results stored as {STORED_NAN:016x}", 28 * 28);
    assert!(nans > 1_000, "too few results that are not numbers");
}

/// A0[0] = A1[0], plain and negated, once and twice.
fn one_operand(number: u64) -> u64 {
    let body = || Encoder::new().array(1).array(2).a_loop(0, 0, 0, 0).read(1, 0);
    let tables = [body(), body().operation(5), body().operation(5).operation(5)];
    tables.map(|table| compare(table, [0x1234, number, 0])).iter().sum()
}

/// A0[0] = A1[0] op A1[1].
fn two_operands(left: u64, right: u64) -> u64 {
    let body = || Encoder::new().array(1).array(2).a_loop(0, 0, 0, 0).read(1, 0).read(1, 1);
    (1..=4).map(|code| compare(body().operation(code), [0x1234, left, right])).sum()
}

/// 1 if the stored result is not a number, which must then have the one
/// pattern of the header.
fn compare(body: Encoder, memory: [u64; 3]) -> u64 {
    let table = body.end().bytes;
    let mut wanted = memory.map(f64::from_bits);
    let mut found = wanted;
    plain_run(&table, &mut wanted).expect("accepted");
    let answer = library::plain_run(&table, &mut found);
    if answer != ACCEPTED || !same_bits(&found, &wanted) {
        let start = format!("  start    {memory:x?}\n{}", first_difference(&found, &wanted));
        stop("special numbers", &table, &start);
    }
    if !found[0].is_nan() {
        return 0;
    }
    assert_eq!(found[0].to_bits(), STORED_NAN, "a result that is not a number");
    1
}

/// Whole numbers become floats with nothing lost. The bits are typed.
fn constants() {
    let typed = [
        (0, 0x0000_0000_0000_0000),
        (1, 0x3FF0_0000_0000_0000),
        (3, 0x4008_0000_0000_0000),
        (16_777_217, 0x4170_0000_1000_0000),
        (2_147_483_648, 0x41E0_0000_0000_0000),
        (4_294_967_295, 0x41EF_FFFF_FFE0_0000),
    ];
    for (value, bits) in typed {
        let table = Encoder::new().array(1).a_loop(0, 0, 0, 0).constant(value).end().bytes;
        let mut memory = [7.0];
        assert_eq!(library::plain_run(&table, &mut memory), ACCEPTED);
        assert_eq!(memory[0].to_bits(), bits, "constant {value}");
    }
}

/// 0 / 0 by constants, alone and with operations behind it.
fn inner_nan() {
    let zero_by_zero =
        || Encoder::new().array(1).a_loop(0, 0, 0, 0).constant(0).constant(0).operation(4);
    let tables = [
        zero_by_zero(),
        zero_by_zero().operation(5),
        zero_by_zero().constant(1).operation(1),
        zero_by_zero().constant(0).operation(3).operation(5),
    ];
    for table in tables {
        let table = table.end().bytes;
        let mut memory = [7.0];
        assert_eq!(library::plain_run(&table, &mut memory), ACCEPTED);
        assert_eq!(memory[0].to_bits(), 0x7FF8_0000_0000_0000, "0 divided by 0");
    }
}
