//! Arrays, sections, fills, transfers and refusals by lists of sizes, found by hand.

use std::ops::Range;

use crate::comparison::{Comparison, Difference, Outcome};
use crate::enumeration::Place;
use crate::gen_block::library::GenBlock;
use crate::gen_block::section_library::Fill;
use crate::library::{Counted, Found, Owned};
use crate::memory::Memory;
use crate::section_comparison::Filling;
use crate::section_library::{Filled, Placed, Steps, Triplet};

const LARGEST: i64 = 2_147_483_647;

/// T, p, a, b, n, La and Lt, and the sizes.
type Array = ([i64; 7], &'static [i32]);

/// Cells 0 to 2 are processor 0's, 3 to 7 processor 2's, 8 and 9 processor 3's, which has
/// two cells past T.
const UNEVEN: Array = ([10, 4, 1, 0, 10, 0, 0], &[3, 0, 5, 4]);
/// A(1:6) aligned with T(3*j-5) of a template from -4 on: A(j) is on cell 3*j - 1. The
/// first size and the last are 0, and the runs meet between A(3) and A(4).
const ALIGNED: Array = ([20, 4, 3, -5, 6, 1, -4], &[0, 9, 11, 0]);
/// One cell less or more for processor 1, and A(3), on cell 8, or A(4), on cell 11, is
/// another's.
const BORDER_BEFORE: Array = ([20, 4, 3, -5, 6, 1, -4], &[0, 8, 12, 0]);
const BORDER_AFTER: Array = ([20, 4, 3, -5, 6, 1, -4], &[0, 12, 8, 0]);
const LARGEST_SIZES: Array = ([LARGEST, 2, 1, 0, LARGEST, 0, 0], &[i32::MAX, i32::MAX]);

/// The indices that each processor holds.
const HELD: [(Array, &[Range<i64>]); 5] = [
    (UNEVEN, &[0..3, 3..3, 3..8, 8..10]),
    (ALIGNED, &[1..1, 1..4, 4..7, 7..7]),
    (BORDER_BEFORE, &[1..1, 1..3, 3..7, 7..7]),
    (BORDER_AFTER, &[1..1, 1..5, 5..7, 7..7]),
    (
        ([3, 3, 1, 0, 3, 0, 0], &[0, 0, 2_147_483_647]),
        &[0..0, 0..0, 0..3],
    ),
];

/// A section, and its count and the cells of its step.
const STEPS: [(Array, [i64; 3], [i64; 2]); 9] = [
    (UNEVEN, [0, 9, 2], [5, 2]),
    (UNEVEN, [9, 0, -2], [5, 2]),
    (UNEVEN, [0, 9, 9], [2, 9]),
    (UNEVEN, [4, 4, 3], [1, 0]),
    (UNEVEN, [5, 4, 3], [0, 0]),
    (ALIGNED, [1, 6, 2], [3, 6]),
    (ALIGNED, [6, 1, -5], [2, 15]),
    (ALIGNED, [6, 2, -5], [1, 0]),
    (
        LARGEST_SIZES,
        [0, LARGEST - 1, LARGEST - 1],
        [2, LARGEST - 1],
    ),
];

/// A section, a processor, its first place and the count, and its addresses.
type WholeList = (Array, [i64; 3], i64, [u64; 2], &'static [u32]);

const LISTS: [WholeList; 13] = [
    (UNEVEN, [0, 9, 1], 2, [3, 10], &[0, 1, 2, 3, 4]),
    (UNEVEN, [0, 9, 2], 0, [0, 5], &[0, 2]),
    (UNEVEN, [0, 9, 2], 1, [5, 5], &[]),
    (UNEVEN, [0, 9, 2], 2, [2, 5], &[1, 3]),
    (UNEVEN, [0, 9, 2], 3, [4, 5], &[0]),
    (UNEVEN, [9, 0, -2], 0, [4, 5], &[1]),
    (UNEVEN, [9, 0, -2], 2, [1, 5], &[4, 2, 0]),
    (UNEVEN, [9, 0, -2], 3, [0, 5], &[1]),
    (UNEVEN, [2, 9, 6], 2, [2, 2], &[]),
    (ALIGNED, [1, 6, 2], 1, [0, 3], &[0, 2]),
    (ALIGNED, [1, 6, 2], 2, [2, 3], &[1]),
    (ALIGNED, [6, 1, -1], 1, [3, 6], &[2, 1, 0]),
    (ALIGNED, [6, 1, -1], 3, [6, 6], &[]),
];

/// Processor, place and quota of a fill of 0:9:1; refusal, entries, tries and place; and
/// the addresses.
type OneFill = ([i64; 3], [i32; 4], &'static [u32]);

const FILLS: [OneFill; 14] = [
    ([2, 3, 3], [0, 1, 1, 4], &[0]),
    ([2, 4, 3], [0, 1, 1, 5], &[1]),
    ([2, 4, 5], [0, 3, 3, 7], &[1, 2, 3]),
    ([2, 7, 5], [0, 1, 1, 10], &[4]),
    ([2, 3, 6], [0, 4, 4, 7], &[0, 1, 2, 3]),
    ([2, 3, 7], [0, 5, 5, 10], &[0, 1, 2, 3, 4]),
    ([2, 10, 7], [0, 0, 0, 10], &[]),
    ([1, 10, 3], [0, 0, 0, 10], &[]),
    ([2, 8, 7], [10, 0, 0, 0], &[]),
    ([2, 2, 7], [10, 0, 0, 0], &[]),
    ([1, 3, 7], [10, 0, 0, 0], &[]),
    ([2, 11, 2], [10, 0, 0, 0], &[]),
    ([2, 3, 2], [11, 0, 0, 0], &[]),
    ([4, 3, 2], [8, 0, 0, 0], &[]),
];

const LARGEST_QUOTA: i64 = 1_000_000;
const MEMORY: usize = 48;
/// Six entries and three bytes left over.
const LIST: Range<usize> = 9..36;

pub fn compare_arrays(comparison: &mut Comparison) -> Result<String, Difference> {
    for (array, held) in HELD {
        let g = of(array);
        for (processor, indices) in (0..).zip(held) {
            let elements = (indices.end - indices.start) as u64;
            comparison.local_count(&g, processor, Counted::elements(elements))?;
            for (address, index) in (0..).zip(indices.clone()) {
                compare_element(comparison, &g, index, [processor, address])?;
            }
        }
    }
    let largest = of(LARGEST_SIZES);
    compare_element(comparison, &largest, LARGEST - 1, [0, LARGEST - 1])?;
    comparison.local_count(&largest, 1, Counted::elements(0))?;
    Ok("arrays by sizes, by hand".to_string())
}

/// There and back.
fn compare_element(
    comparison: &mut Comparison,
    g: &GenBlock,
    index: i64,
    [processor, address]: [i64; 2],
) -> Outcome {
    let place = Place {
        processor: processor as u64,
        address: address as u64,
    };
    comparison.ownership(g, index, Owned::at(place))?;
    comparison.going_back(g, processor, address, Found::element(index))
}

pub fn compare_sections(comparison: &mut Comparison) -> Result<String, Difference> {
    for (array, section, [count, cells]) in STEPS {
        let steps = Steps {
            count,
            steps: i64::from(count > 1),
            cells,
            column: cells,
            ..Steps::refused(0)
        };
        comparison.section_steps(&of(array), &Triplet::of(section), steps)?;
    }
    for (array, section, processor, [first, count], addresses) in LISTS {
        let (g, triplet) = (of(array), Triplet::of(section));
        comparison.first_place(&g, &triplet, processor, Placed::at(first))?;
        let fill = fill(array, section, [processor, first as i64, LARGEST_QUOTA]);
        let entries = addresses.len() as i32;
        compare_fill(
            comparison,
            &fill,
            [0, entries, entries, count as i32],
            addresses,
        )?;
    }
    for (numbers, answer, addresses) in FILLS {
        let fill = fill(UNEVEN, [0, 9, 1], numbers);
        compare_fill(comparison, &fill, answer, addresses)?;
    }
    Ok("sections and fills by sizes, by hand".to_string())
}

fn compare_fill(
    comparison: &mut Comparison,
    fill: &Fill,
    [refusal, entries, tries, place]: [i32; 4],
    addresses: &[u32],
) -> Outcome {
    let expected = Filling {
        answer: Filled {
            refusal,
            entries,
            tries,
            place,
        },
        addresses: addresses.to_vec(),
    };
    comparison.fill(fill, &mut Memory::new(MEMORY), LIST, &expected)?;
    Ok(())
}

fn of((numbers, sizes): Array) -> GenBlock {
    GenBlock::of(numbers, sizes)
}

fn fill(array: Array, section: [i64; 3], [processor, place, quota]: [i64; 3]) -> Fill {
    Fill {
        g: of(array),
        triplet: Triplet::of(section),
        processor,
        place,
        quota,
    }
}
