//! Numbers at and past every limit, in the calls on sections: several faults
//! stand together, and the refusal must name the first.

use std::ops::Range;

use crate::comparison::{Comparison, Difference, Outcome};
use crate::library::Mapping;
use crate::memory::Memory;
use crate::questions::LARGEST_STRIDE;
use crate::section_answers;
use crate::section_library::{Fill, Triplet};
use crate::special_numbers::{combine, exchange_pairs};

const LARGEST: i64 = 2_147_483_647;

/// For each number of a mapping its limits, what lies past them, and a number
/// within: together 96 3 4 5 2 19 0 0, in which 20 elements would not fit.
const MAPPINGS: [&[i64]; 8] = [
    &[0, 96, LARGEST, LARGEST + 1],
    &[0, 3, 1_024, 1_025],
    &[0, 4, 65_536, 65_537],
    &[0, 5, LARGEST_STRIDE + 1],
    &[-LARGEST - 1, -1, 2],
    &[-1, 0, 19, 20, LARGEST + 1],
    &[0, LARGEST + 1],
    &[-LARGEST - 1, 0],
];
const LOWER_BOUNDS: &[i64] = &[-LARGEST - 1, -1, 0, 18];
const UPPER_BOUNDS: &[i64] = &[0, 18, 21, LARGEST + 1];
const STEPS: &[i64] = &[-LARGEST - 1, -4, 0, 1, 7, LARGEST];
const PROCESSORS: &[i64] = &[-1, 0, 2, 3];

/// Fewer for fills, which take two numbers more.
const MAPPINGS_OF_FILLS: [&[i64]; 8] = [
    &[96, LARGEST + 1],
    &[3, 1_025],
    &[4, 65_537],
    &[5, LARGEST_STRIDE + 1],
    &[2, LARGEST + 1],
    &[19, 20],
    &[0, -LARGEST - 1],
    &[0, LARGEST - 94],
];
const STEPS_OF_FILLS: &[i64] = &[-4, 0, 1, 7, LARGEST + 1];
const PLACES: &[i64] = &[-1, 0, 2, 3, 19];
const QUOTAS: &[i64] = &[2, 3, 1_000_000, 1_000_001];

/// Calls in which two numbers at a time are exchanged for others: mapping,
/// section, then processor, place and quota. One has two elements almost 2^31
/// cells apart, and two have one element and a distance of almost 2^43 cells.
const LAWFUL: [([i64; 8], [i64; 3], [i64; 3]); 8] = [
    ([96, 3, 4, 5, 2, 19, 0, 0], [0, 18, 3], [0, 0, 3]),
    ([96, 3, 4, 1, 0, 96, 0, 0], [91, 0, -7], [1, 2, 9]),
    (
        [LARGEST, 1_024, 65_536, 1, 0, LARGEST, 0, 0],
        [LARGEST - 1, 0, -65_537],
        [1_023, 0, 1_000_000],
    ),
    (
        [LARGEST, 1_024, 3, LARGEST_STRIDE, 0, 524_288, 0, 0],
        [0, 524_287, 524_287],
        [0, 0, 999_999],
    ),
    (
        [1, 1, 1, LARGEST_STRIDE, 0, 1, 0, 0],
        [0, 0, LARGEST],
        [0, 0, 4],
    ),
    (
        [1, 1, 65_536, LARGEST_STRIDE, 0, 1, 0, 0],
        [0, 1 - LARGEST, -LARGEST],
        [0, 1, 5],
    ),
    (
        [96, 3, 4, 1, LARGEST, 19, -LARGEST, 0],
        [-LARGEST + 18, -LARGEST, -2],
        [0, 1, 3],
    ),
    (
        [96, 3, 4, 1, -LARGEST, 19, LARGEST - 18, -18],
        [LARGEST - 18, LARGEST, 7],
        [0, 0, 3],
    ),
];

const MEMORY: usize = 32;
/// Two entries and three bytes left over.
const LIST: Range<usize> = 9..20;

pub fn compare_combinations(comparison: &mut Comparison) -> Result<String, Difference> {
    let (l, h, s) = (LOWER_BOUNDS, UPPER_BOUNDS, STEPS);
    let [t, p, k, a, b, n, la, lt] = MAPPINGS;
    let steps = [t, p, k, a, b, n, la, lt, l, h, s];
    combine(comparison, steps, section_steps)?;
    let places = [t, p, k, a, b, n, la, lt, l, h, s, PROCESSORS];
    combine(comparison, places, first_place)?;
    let [t, p, k, a, b, n, la, lt] = MAPPINGS_OF_FILLS;
    let s = STEPS_OF_FILLS;
    let fills = [
        t, p, k, a, b, n, la, lt, l, h, s, PROCESSORS, PLACES, QUOTAS,
    ];
    combine(comparison, fills, fill)?;
    Ok("sections at and past the limits, in all combinations".to_string())
}

pub fn compare_exchanges(comparison: &mut Comparison) -> Result<String, Difference> {
    for ([t, p, k, a, b, n, la, lt], [l, h, s], [processor, place, quota]) in LAWFUL {
        let steps = [t, p, k, a, b, n, la, lt, l, h, s];
        exchange_pairs(comparison, steps, section_steps)?;
        let places = [t, p, k, a, b, n, la, lt, l, h, s, processor];
        exchange_pairs(comparison, places, first_place)?;
        let fills = [t, p, k, a, b, n, la, lt, l, h, s, processor, place, quota];
        exchange_pairs(comparison, fills, fill)?;
    }
    Ok("sections far and near, any two numbers at a time".to_string())
}

pub fn section_steps(comparison: &mut Comparison, numbers: [i64; 11]) -> Outcome {
    let [t, p, k, a, b, n, la, lt, l, h, s] = numbers;
    let m = Mapping::of([t, p, k, a, b, n, la, lt]);
    let triplet = Triplet::of([l, h, s]);
    comparison.section_steps(&m, &triplet, section_answers::section_steps(&m, &triplet))
}

pub fn first_place(comparison: &mut Comparison, numbers: [i64; 12]) -> Outcome {
    let [t, p, k, a, b, n, la, lt, l, h, s, processor] = numbers;
    let m = Mapping::of([t, p, k, a, b, n, la, lt]);
    let triplet = Triplet::of([l, h, s]);
    let expected = section_answers::first_place(&m, &triplet, processor);
    comparison.first_place(&m, &triplet, processor, expected)
}

pub fn fill(comparison: &mut Comparison, numbers: [i64; 14]) -> Outcome {
    let [t, p, k, a, b, n, la, lt, l, h, s, processor, place, quota] = numbers;
    let m = [t, p, k, a, b, n, la, lt];
    let fill = Fill::of(m, [l, h, s], [processor, place, quota]);
    let expected = section_answers::fill(&fill, LIST.len() / 4);
    comparison.fill(&fill, &mut Memory::new(MEMORY), LIST, &expected)?;
    let without_list = section_answers::fill(&fill, 0);
    comparison.fill_nothing(&fill, without_list.answer)
}
