//! Sections whose steps, lists and refusals were found by hand.

use std::ops::Range;

use crate::comparison::{Comparison, Difference, Outcome};
use crate::library::Mapping;
use crate::memory::Memory;
use crate::section_comparison::Filling;
use crate::section_library::{Fill, Filled, Placed, Steps, Triplet};

const DENSE: [i64; 8] = [96, 3, 4, 1, 0, 96, 0, 0];
const EVERY_THIRD_CELL: [i64; 8] = [144, 4, 4, 3, 0, 48, 0, 0];
const SMALL: [i64; 8] = [12, 3, 2, 1, 0, 12, 0, 0];
const EIGHT_ELEMENTS: [i64; 8] = [8, 3, 4, 1, 0, 8, 0, 0];
const NO_ELEMENTS: [i64; 8] = [1, 1, 1, 1, 0, 0, 0, 0];
const MOST_PROCESSORS: [i64; 8] = [96, 1_024, 4, 1, 0, 96, 0, 0];
const TOO_MANY_PROCESSORS: [i64; 8] = [96, 1_025, 4, 1, 0, 96, 0, 0];
const LARGEST_BLOCK: [i64; 8] = [96, 3, 65_536, 1, 0, 96, 0, 0];
const TOO_LARGE_BLOCK: [i64; 8] = [96, 3, 65_537, 1, 0, 96, 0, 0];
const LARGEST_STRIDE: [i64; 8] = [8_193, 3, 4, 4_096, 0, 3, 0, 0];
const TOO_LARGE_STRIDE: [i64; 8] = [8_193, 3, 4, 4_097, 0, 1, 0, 0];
/// A(1:48) aligned with T(3*j-3), and A(-3:44) with T(3*j+7) of a template from -2
/// on: both are the array above on every third cell.
const FROM_ONE: [i64; 8] = [144, 4, 4, 3, -3, 48, 1, 0];
const FROM_MINUS_THREE: [i64; 8] = [144, 4, 4, 3, 7, 48, -3, -2];
/// Its last index is one past the largest. Its cells lie past the template too, which
/// is asked later.
const PAST_THE_LARGEST: [i64; 8] = [144, 4, 4, 1, 0, 48, 2_147_483_601, 0];

/// A mapping, a section, and the answer of its steps.
const STEPS: [([i64; 8], [i64; 3], [i64; 9]); 21] = [
    (DENSE, [0, 95, 7], [0, 14, 2, 14, 1, 2, 21, 2, -3]),
    (DENSE, [91, 0, -7], [0, 14, 2, 14, 1, 2, 21, 2, -3]),
    (EIGHT_ELEMENTS, [0, 10, 7], [0, 2, 2, 14, 1, 2, 21, 2, -3]),
    (EIGHT_ELEMENTS, [0, 14, 7], [7, 0, 0, 0, 0, 0, 0, 0, 0]),
    (SMALL, [0, 11, 6], [0, 2, 1, 6, 1, 0, 0, 0, 0]),
    (SMALL, [9, 0, -4], [0, 3, 1, 12, 2, 0, 0, 0, 0]),
    (SMALL, [11, 11, 2], [0, 1, 0, 0, 0, 0, 0, 0, 0]),
    (SMALL, [5, 4, 3], [0, 0, 0, 0, 0, 0, 0, 0, 0]),
    (NO_ELEMENTS, [5, 1, 3], [0, 0, 0, 0, 0, 0, 0, 0, 0]),
    (
        MOST_PROCESSORS,
        [0, 95, 4],
        [0, 24, 1, 4_096, 1, 0, 0, 0, 0],
    ),
    (TOO_MANY_PROCESSORS, [0, 95, 4], [2, 0, 0, 0, 0, 0, 0, 0, 0]),
    (
        LARGEST_BLOCK,
        [0, 95, 1],
        [0, 96, 2, 1, 0, 1, 131_073, 1, -65_535],
    ),
    (TOO_LARGE_BLOCK, [0, 95, 1], [3, 0, 0, 0, 0, 0, 0, 0, 0]),
    (
        LARGEST_STRIDE,
        [0, 2, 1],
        [0, 3, 1, 12_288, 1_024, 0, 0, 0, 0],
    ),
    (
        LARGEST_STRIDE,
        [1, 2, 2_147_483_647],
        [0, 1, 0, 0, 0, 0, 0, 0, 0],
    ),
    (TOO_LARGE_STRIDE, [0, 0, 1], [4, 0, 0, 0, 0, 0, 0, 0, 0]),
    (FROM_ONE, [1, 48, 3], [0, 16, 2, 18, 1, 2, 45, 3, -3]),
    (FROM_ONE, [0, 48, 3], [7, 0, 0, 0, 0, 0, 0, 0, 0]),
    (
        FROM_MINUS_THREE,
        [-3, 44, 3],
        [0, 16, 2, 18, 1, 2, 45, 3, -3],
    ),
    (FROM_MINUS_THREE, [45, -3, -3], [7, 0, 0, 0, 0, 0, 0, 0, 0]),
    (PAST_THE_LARGEST, [0, 0, 0], [15, 0, 0, 0, 0, 0, 0, 0, 0]),
];

/// A mapping, a section, and a processor's whole list: first place, tries,
/// count, and the addresses.
type WholeList = ([i64; 8], [i64; 3], i64, [i32; 3], &'static [u32]);

const LISTS: [WholeList; 24] = [
    (DENSE, [0, 95, 7], 0, [0, 8, 14], &[0, 6, 17, 23, 28]),
    (DENSE, [0, 95, 7], 1, [1, 9, 14], &[3, 8, 14, 25, 31]),
    (DENSE, [0, 95, 7], 2, [3, 7, 14], &[5, 11, 16, 22]),
    (DENSE, [91, 0, -7], 1, [0, 8, 14], &[31, 25, 14, 8, 3]),
    (EVERY_THIRD_CELL, [0, 47, 3], 0, [0, 7, 16], &[0, 2, 7, 9]),
    (EVERY_THIRD_CELL, [0, 47, 3], 1, [4, 7, 16], &[2, 4, 9, 11]),
    (EVERY_THIRD_CELL, [0, 47, 3], 2, [1, 7, 16], &[0, 2, 5, 7]),
    (EVERY_THIRD_CELL, [0, 47, 3], 3, [5, 7, 16], &[3, 5, 8, 10]),
    (SMALL, [0, 11, 6], 0, [0, 2, 2], &[0, 2]),
    (SMALL, [0, 11, 6], 1, [2, 0, 2], &[]),
    (SMALL, [0, 11, 6], 2, [2, 0, 2], &[]),
    (SMALL, [0, 11, 5], 0, [0, 1, 3], &[0]),
    (SMALL, [0, 11, 5], 1, [3, 0, 3], &[]),
    (SMALL, [0, 11, 5], 2, [1, 3, 3], &[1, 2]),
    (SMALL, [9, 0, -4], 0, [2, 1, 3], &[1]),
    (SMALL, [9, 0, -4], 1, [0, 1, 3], &[3]),
    (NO_ELEMENTS, [5, 1, 3], 0, [0, 0, 0], &[]),
    (LARGEST_STRIDE, [0, 2, 1], 2, [2, 1, 3], &[0]),
    (LARGEST_STRIDE, [1, 2, 2_147_483_647], 1, [0, 1, 1], &[0]),
    (LARGEST_STRIDE, [1, 2, 2_147_483_647], 2, [1, 0, 1], &[]),
    (FROM_ONE, [1, 48, 3], 1, [4, 7, 16], &[2, 4, 9, 11]),
    (FROM_ONE, [1, 48, 3], 3, [5, 7, 16], &[3, 5, 8, 10]),
    (FROM_MINUS_THREE, [-3, 44, 3], 0, [0, 7, 16], &[0, 2, 7, 9]),
    (FROM_MINUS_THREE, [-3, 43, 3], 2, [1, 7, 16], &[0, 2, 5, 7]),
];

/// Processor, place and quota of a fill of 0:95:7 in the dense array; refusal,
/// entries, tries and place; and the addresses.
type OneFill = ([i64; 3], [i32; 4], &'static [u32]);

const FILLS: [OneFill; 13] = [
    ([0, 0, 4], [0, 2, 4, 7], &[0, 6]),
    ([0, 7, 4], [0, 2, 3, 12], &[17, 23]),
    ([0, 12, 4], [0, 1, 1, 14], &[28]),
    ([0, 14, 4], [0, 0, 0, 14], &[]),
    ([0, 0, 3], [0, 1, 1, 2], &[0]),
    ([0, 0, 2], [11, 0, 0, 0], &[]),
    ([0, 0, 1_000_000], [0, 5, 8, 14], &[0, 6, 17, 23, 28]),
    ([0, 0, 1_000_001], [11, 0, 0, 0], &[]),
    ([0, 1, 4], [10, 0, 0, 0], &[]),
    ([0, -1, 2], [10, 0, 0, 0], &[]),
    ([0, 15, 4], [10, 0, 0, 0], &[]),
    ([3, 0, 4], [8, 0, 0, 0], &[]),
    ([-1, -1, 2], [8, 0, 0, 0], &[]),
];

const LARGEST_QUOTA: i64 = 1_000_000;
const MEMORY: usize = 48;
/// Seven entries and three bytes left over.
const LIST: Range<usize> = 8..39;

pub fn compare_cases(comparison: &mut Comparison) -> Result<String, Difference> {
    for (numbers, section, answer) in STEPS {
        let (m, triplet) = (Mapping::of(numbers), Triplet::of(section));
        comparison.section_steps(&m, &triplet, steps(answer))?;
    }
    for case in LISTS {
        compare_list(comparison, case)?;
    }
    for (numbers, answer, addresses) in FILLS {
        let fill = Fill::of(DENSE, [0, 95, 7], numbers);
        compare_fill(comparison, &fill, answer, addresses)?;
    }
    Ok("sections and fills, by hand".to_string())
}

fn compare_list(comparison: &mut Comparison, case: WholeList) -> Outcome {
    let (numbers, section, processor, [first, tries, count], addresses) = case;
    let rest = [processor, i64::from(first), LARGEST_QUOTA];
    let fill = Fill::of(numbers, section, rest);
    let place = Placed::at(first as u64);
    comparison.first_place(&fill.m, &fill.triplet, processor, place)?;
    let answer = [0, addresses.len() as i32, tries, count];
    compare_fill(comparison, &fill, answer, addresses)
}

fn compare_fill(
    comparison: &mut Comparison,
    fill: &Fill,
    answer: [i32; 4],
    addresses: &[u32],
) -> Outcome {
    let [refusal, entries, tries, place] = answer;
    let expected = Filling {
        answer: Filled {
            refusal,
            entries,
            tries,
            place,
        },
        addresses: addresses.to_vec(),
    };
    comparison.fill(fill, &mut Memory::new(MEMORY), LIST, &expected)?;
    Ok(())
}

fn steps(answer: [i64; 9]) -> Steps {
    let [refusal, count, steps, cells, courses, column, return_cells, return_courses, return_column] =
        answer;
    Steps {
        refusal,
        count,
        steps,
        cells,
        courses,
        column,
        return_cells,
        return_courses,
        return_column,
    }
}
