//! Numbers above two bytes, and sweeps above one: indices, lengths of tables
//! and lists, numbers of processors.

use crate::entries::every_entry;
use crate::numbers::written;
use vempaldi_checks::encoder::encode;
use vempaldi_checks::examples::EXAMPLE;
use vempaldi_checks::large;
use vempaldi_checks::library_planning as library;
use vempaldi_checks::settings::Settings;
use vempaldi_checks::tally::Tally;

pub fn compare_all() {
    typed();
    let mut tally = Tally::new();
    let long = encode(&large::last_indices(2));
    let two = Settings::of(2);
    for (processors, processor, line) in [(1, 0, 1), (2, 0, 1), (2, 1, 63), (64, 63, 64)] {
        every_entry(&mut tally, &long, Settings::new(processors, line), processor);
    }
    every_entry(&mut tally, &encode(&large::chained()), two, 1);
    let by_four = encode(&large::last_indices_by_four());
    for (processors, processor, line) in [(1, 0, 1), (2, 1, 63), (64, 63, 64)] {
        every_entry(&mut tally, &by_four, Settings::new(processors, line), processor);
    }
    for table in [&EXAMPLE[..], &long] {
        every_entry(&mut tally, &large::followed(table), two, 1);
        // Numbers of which the low bytes alone name a processor or a length.
        for above in [1 << 8, 1 << 16, 1 << 24, 1 << 31] {
            every_entry(&mut tally, table, two, above);
            every_entry(&mut tally, table, two, above + 1);
            every_entry(&mut tally, table, Settings::of(above + 2), 1);
            every_entry(&mut tally, table, Settings::new(2, above + 1), 1);
        }
    }
    tally.print("large numbers in planning");
    tally.require(&[0, 8, 10, 13, 17], 20);
}

fn typed() {
    let long = encode(&large::last_indices(2));
    let facts = [2, 2, 131_072, 0, 65_536, 65_536, 65_536, 253, 65_788, 255, 65_790];
    written(&|out| library::facts(&long, out), &facts);
    let one = Settings::of(1);
    written(&|out| library::blocks(&long, one, out), &[253, 65_790]);
    written(&|out| library::fused_ranges(&long, one, 0, out), &[253, 65_789, 255, 65_791]);
    // 65,538 indices are 1,024 lines of 64 and one of two: 513 lines, 512.
    let two = Settings::new(2, 64);
    written(&|out| library::blocks(&long, two, out), &[253, 33_084, 33_085, 65_790]);
    let chained = encode(&large::chained());
    let amounts: Vec<u32> = (0..16).flat_map(|k| [255 * k, 255 * k]).collect();
    written(&|out| library::shifts_and_peels(&chained, out), &amounts);
    written(&|out| library::threshold(&chained, out), &[7_650]);
    let touching = encode(&large::touching());
    written(&|out| library::sweeps(&touching, out), &[272, 32]);
    let by_four = encode(&large::touching_by_four());
    written(&|out| library::sweeps(&by_four, out), &[320, 32]);
    let by_four = encode(&large::last_indices_by_four());
    written(&|out| library::shifts_and_peels(&by_four, out), &[0, 0, 0, 2]);
    // All four arrays are touched and written, by both.
    written(&|out| library::sweeps(&by_four, out), &[16, 8]);
}
