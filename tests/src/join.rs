//! Joins two tables over the same arrays into one.

use crate::encoder::encode;
use crate::outcome::Refusal;
use crate::reader::read;
use crate::table::{Table, MOST_LOOPS};

const CROWD: u64 = 4;
const BUFFER: u64 = 13;
const UNLIKE: u64 = 14;

/// The bytes of the joined table, for an output of `room` bytes.
pub fn join(left: &[u8], right: &[u8], room: usize) -> Result<Vec<u8>, Refusal> {
    let left = read(left)?;
    let right = read(right)?;
    if left.arrays != right.arrays {
        return Err(Refusal::whole(UNLIKE));
    }
    if left.loops.len() + right.loops.len() > MOST_LOOPS {
        return Err(Refusal::whole(CROWD));
    }
    let joined = encode(&together(left, right));
    if joined.len() > room {
        return Err(Refusal::whole(BUFFER));
    }
    Ok(joined)
}

/// Left's arrays, then left's loops, then right's.
pub fn together(left: Table, right: Table) -> Table {
    let mut loops = left.loops;
    loops.extend(right.loops);
    Table { arrays: left.arrays, loops }
}

#[cfg(test)]
mod tests {
    use super::*;
    use crate::examples::{loops_reading, reads_own_array, EXAMPLE, TWO_STATEMENTS};

    #[test]
    fn the_example_with_itself_keeps_its_arrays_once() {
        // 15 bytes of arrays, twice 45 of loops, one end.
        let joined = join(&EXAMPLE, &EXAMPLE, 106).expect("joined");
        assert_eq!(joined, [&EXAMPLE[..60], &EXAMPLE[15..]].concat());
        assert_eq!(join(&EXAMPLE, &EXAMPLE, 105), Err(Refusal::whole(13)));
    }

    #[test]
    fn the_left_table_is_refused_before_the_right_one() {
        let serial = reads_own_array(9);
        assert_eq!(join(&EXAMPLE[..60], &serial, 999), Err(Refusal::new(1, 60)));
        assert_eq!(join(&serial, &EXAMPLE[..60], 999), Err(Refusal::serial(0, (0, 1))));
    }

    /// Arrays play no part in this: they are compared after ground 9.
    #[test]
    fn the_pair_is_named_in_the_table_that_meets_9() {
        let first = reads_own_array(9);
        // Loop 1, 10 to 49, stores A1[i] and reads A1[i], A0[i] and A1[i+10].
        let later = loops_reading(&[&[(2, 0)], &[(1, 0), (0, 0), (1, 10)]]);
        assert_eq!(join(&EXAMPLE, &later, 999), Err(Refusal::serial(1, (0, 3))));
        assert_eq!(join(&later, &first, 999), Err(Refusal::serial(1, (0, 3))));
        assert_eq!(join(&first, &later, 999), Err(Refusal::serial(0, (0, 1))));
    }

    /// 10 bytes of arrays, twice 31 of the loop, one end.
    #[test]
    fn further_statements_are_joined_with_their_loops() {
        let joined = join(&TWO_STATEMENTS, &TWO_STATEMENTS, 73).expect("joined");
        assert_eq!(joined, [&TWO_STATEMENTS[..41], &TWO_STATEMENTS[10..]].concat());
        assert_eq!(join(&TWO_STATEMENTS, &TWO_STATEMENTS, 72), Err(Refusal::whole(13)));
    }

    #[test]
    fn other_arrays_are_unlike() {
        let other = reads_own_array(10);
        assert_eq!(join(&EXAMPLE, &other, 0), Err(Refusal::whole(14)));
    }
}
