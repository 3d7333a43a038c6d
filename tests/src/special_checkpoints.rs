//! Checkpoints and restores with numbers at and past every limit, so that the first of
//! several faults must be named, and with lists that are just long enough and just not;
//! and of long arrays.

use crate::checkpoint_comparison::distinct_words;
use crate::checkpoint_enumeration::Layout;
use crate::checkpoint_library::DIRECTIONS;
use crate::comparison::{Comparison, Difference, Outcome};
use crate::library::Mapping;
use crate::questions;
use crate::special_bounds;
use crate::special_numbers::{self, combine, exchange_pairs, LAWFUL};

const LARGEST: i64 = 2_147_483_647;

/// How many words are read, and how many written: none, one too few for 19 elements, and
/// enough for them.
const READ: &[i64] = &[0, 19];
const WRITTEN: &[i64] = &[18, 19];

/// Mappings of 0 to 19 elements, and lists of each length about these.
const FEW_ELEMENTS: [&[i64]; 8] = [&[96], &[3], &[4], &[5], &[-16], &[0, 1, 2, 19], &[3], &[-3]];
const LENGTHS: &[i64] = &[0, 1, 2, 3, 17, 18, 19, 20, 21];

/// Mappings of 2,500,000 elements: on one processor, on two, on three, and on every
/// eighth of 1,024.
const LONG: [[i64; 8]; 4] = [
    [LARGEST, 1, 65_536, 858, 0, 2_500_000, 0, 0],
    [7_500_000, 2, 5, 3, 0, 2_500_000, 0, 0],
    [5_000_001, 3, 4, 2, 7, 2_500_000, -3, 0],
    [20_000_000, 1_024, 1, 8, 5, 2_500_000, 1, 13],
];

pub fn compare_combinations(comparison: &mut Comparison) -> Result<String, Difference> {
    for (mappings, read, written) in [
        (special_numbers::MAPPINGS, READ, WRITTEN),
        (special_bounds::MAPPINGS, READ, WRITTEN),
        (FEW_ELEMENTS, LENGTHS, LENGTHS),
    ] {
        let [t, p, k, a, b, n, la, lt] = mappings;
        let numbers = [t, p, k, a, b, n, la, lt, read, written];
        combine(comparison, numbers, copies)?;
    }
    Ok("checkpoints and restores at and past their limits, in all combinations".to_string())
}

pub fn compare_exchanges(comparison: &mut Comparison) -> Result<String, Difference> {
    for lawful in LAWFUL {
        exchange_pairs(comparison, lawful, |comparison, numbers| {
            let [t, p, k, a, b, n, la, lt] = numbers;
            copies(comparison, [t, p, k, a, b, n, la, lt, 20, 19])
        })?;
    }
    Ok("checkpoints and restores far and near, any two numbers at a time".to_string())
}

/// Saved under each mapping and restored under the next: processors with more words than
/// the largest quota of a fill, and with fewer.
pub fn compare_long_arrays(comparison: &mut Comparison) -> Result<String, Difference> {
    let layouts = LONG.map(|numbers| Layout::of(&Mapping::of(numbers)));
    for (old, new) in layouts.iter().zip(layouts.iter().cycle().skip(1)) {
        comparison.save_and_restore(old, new)?;
    }
    Ok("long arrays, saved and restored".to_string())
}

/// Both calls, with a list of so many words to read and one of so many to write.
fn copies(comparison: &mut Comparison, numbers: [i64; 10]) -> Outcome {
    let [t, p, k, a, b, n, la, lt, read, written] = numbers;
    let m = Mapping::of([t, p, k, a, b, n, la, lt]);
    let (read, written) = (read as usize, written as usize);
    let layout = match questions::of_copy(&m, [read, written]) {
        0 => Layout::of(&m),
        _ => Layout::unknown(&m),
    };
    for direction in DIRECTIONS {
        comparison.copy(direction, &layout, &distinct_words(read), written)?;
    }
    Ok(())
}
