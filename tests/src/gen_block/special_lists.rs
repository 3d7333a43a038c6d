//! Lists of sizes that are lawful and at fault, and numbers at and past every limit, in all
//! combinations: several faults stand together, and the refusal must name the first.

use std::ops::Range;

use crate::checkpoint_comparison::distinct_words;
use crate::checkpoint_enumeration::Layout;
use crate::checkpoint_library::DIRECTIONS;
use crate::comparison::{Comparison, Difference, Outcome};
use crate::gen_block::answers;
use crate::gen_block::library::GenBlock;
use crate::gen_block::section_library::Fill;
use crate::gen_block::sizes::Sizes;
use crate::memory::Memory;
use crate::questions::{of_copy, LARGEST_STRIDE};
use crate::section_library::Triplet;
use crate::special_numbers::combine;

const LARGEST: i64 = 2_147_483_647;
const MIN: i32 = i32::MIN;
const MAX: i32 = i32::MAX;

/// Lawful and not, for 96 cells, and for 1, 3 and 1,024 processors.
const LISTS: [&[i32]; 22] = [
    &[40, 0, 56],
    &[0, 96, 0],
    &[0, 0, 97],
    &[MAX, MAX, MAX],
    &[40, 0, 55],
    &[97, -1, 0],
    &[MAX, MIN, MAX],
    &[MIN, MAX, MAX],
    &[MIN, MIN, MIN],
    &[0, 0, 0],
    &[40, 56],
    &[40, 0, 56, 0],
    &[],
    &[96],
    &[95],
    &[-1],
    &[MIN],
    &[MAX],
    &[MAX - 1],
    &[MAX; 1_024],
    &[0; 1_024],
    &[-1; 1_024],
];
/// How many bytes a list has more or fewer than 4 to a size.
const LEFT_OVER: [i64; 7] = [-3, -2, -1, 0, 1, 2, 3];

/// T, p, a, b, n, La and Lt: for each its limits, what lies past them, and a number
/// within. Together 96 3 5 2 19 0 0, in which 20 elements would not fit.
const MAPPINGS: [&[i64]; 7] = [
    &[0, 1, 96, LARGEST, LARGEST + 1],
    &[i64::MIN, 0, 1, 3, 1_024, 1_025, (1 << 62) + 3],
    &[0, 5, LARGEST_STRIDE, LARGEST_STRIDE + 1],
    &[-LARGEST - 1, -1, 2],
    &[-1, 0, 1, 19, 20, LARGEST + 1],
    &[0, LARGEST + 1],
    &[-LARGEST - 1, 0],
];
const INDICES: &[i64] = &[-1, 0, 8, 18, 19];
const PROCESSORS: &[i64] = &[-1, 0, 2, 3];
const ADDRESSES: &[i64] = &[-1, 0, 10];

/// Fewer for lists with bytes left over, and for calls that take more numbers.
const FEW_MAPPINGS: [&[i64]; 7] = [
    &[0, 96],
    &[0, 1, 3],
    &[0, 5],
    &[-1, 2],
    &[19, 20],
    &[0, LARGEST + 1],
    &[0, LARGEST - 94],
];
const LOWER_BOUNDS: &[i64] = &[-1, 0, 18];
const UPPER_BOUNDS: &[i64] = &[0, 18, LARGEST + 1];
const STEPS: &[i64] = &[-4, 0, 7];
const PLACES: &[i64] = &[0, 2, 3];
const QUOTAS: &[i64] = &[2, 3];

const MEMORY: usize = 32;
/// Two entries and three bytes left over.
const LIST: Range<usize> = 9..20;

/// Each list as it is.
pub fn whole_lists() -> impl Iterator<Item = Sizes> {
    LISTS.into_iter().map(Sizes::of)
}

/// Each list with bytes more, or fewer, or none.
pub fn lists_with_bytes() -> impl Iterator<Item = Sizes> {
    whole_lists().flat_map(|sizes| LEFT_OVER.map(|left_over| with_bytes(&sizes, left_over)))
}

fn with_bytes(sizes: &Sizes, left_over: i64) -> Sizes {
    let mut bytes = sizes.bytes().to_vec();
    let length = bytes.len() as i64 + left_over;
    bytes.resize(length.max(0) as usize, 0);
    Sizes::of_bytes(&bytes)
}

pub fn compare_elements(comparison: &mut Comparison) -> Result<String, Difference> {
    for sizes in whole_lists() {
        compare_calls_on_elements(comparison, &sizes, MAPPINGS)?;
    }
    for sizes in lists_with_bytes() {
        compare_calls_on_elements(comparison, &sizes, FEW_MAPPINGS)?;
    }
    Ok("lists of sizes and numbers at and past their limits, in all combinations".to_string())
}

fn compare_calls_on_elements(
    comparison: &mut Comparison,
    sizes: &Sizes,
    [t, p, a, b, n, la, lt]: [&[i64]; 7],
) -> Outcome {
    let elements = [t, p, a, b, n, la, lt, INDICES];
    combine(comparison, elements, |comparison, numbers| {
        let [t, p, a, b, n, la, lt, index] = numbers;
        let g = mapping([t, p, a, b, n, la, lt], sizes);
        comparison.ownership(&g, index, answers::ownership(&g, index))
    })?;
    let processors = [t, p, a, b, n, la, lt, PROCESSORS, ADDRESSES];
    combine(comparison, processors, |comparison, numbers| {
        let [t, p, a, b, n, la, lt, processor, address] = numbers;
        let g = mapping([t, p, a, b, n, la, lt], sizes);
        comparison.local_count(&g, processor, answers::local_count(&g, processor))?;
        let expected = answers::going_back(&g, processor, address);
        comparison.going_back(&g, processor, address, expected)
    })
}

pub fn compare_sections(comparison: &mut Comparison) -> Result<String, Difference> {
    let (l, h, s) = (LOWER_BOUNDS, UPPER_BOUNDS, STEPS);
    let [t, p, a, b, n, la, lt] = FEW_MAPPINGS;
    for sizes in lists_with_bytes() {
        let sections = [t, p, a, b, n, la, lt, l, h, s];
        combine(comparison, sections, |comparison, numbers| {
            let [t, p, a, b, n, la, lt, l, h, s] = numbers;
            let g = mapping([t, p, a, b, n, la, lt], &sizes);
            compare_section(comparison, &g, &Triplet::of([l, h, s]))
        })?;
    }
    for sizes in whole_lists().take(8) {
        let fills = [t, p, a, b, n, la, lt, l, h, s, PROCESSORS, PLACES, QUOTAS];
        combine(comparison, fills, |comparison, numbers| {
            let [t, p, a, b, n, la, lt, l, h, s, processor, place, quota] = numbers;
            let fill = Fill {
                g: mapping([t, p, a, b, n, la, lt], &sizes),
                triplet: Triplet::of([l, h, s]),
                processor,
                place,
                quota,
            };
            compare_fill(comparison, &fill)
        })?;
    }
    Ok("sections by sizes at and past their limits, in all combinations".to_string())
}

fn compare_section(comparison: &mut Comparison, g: &GenBlock, triplet: &Triplet) -> Outcome {
    comparison.section_steps(g, triplet, answers::section_steps(g, triplet))?;
    for processor in [-1, 0] {
        let expected = answers::first_place(g, triplet, processor);
        comparison.first_place(g, triplet, processor, expected)?;
    }
    Ok(())
}

fn compare_fill(comparison: &mut Comparison, fill: &Fill) -> Outcome {
    let expected = answers::fill(fill, LIST.len() / 4);
    comparison.fill(fill, &mut Memory::new(MEMORY), LIST, &expected)?;
    comparison.fill_nothing(fill, answers::fill(fill, 0).answer)
}

/// With lists of words that are empty, one too short for 19 elements, and long enough.
pub fn compare_checkpoints(comparison: &mut Comparison) -> Result<String, Difference> {
    let [t, p, a, b, n, la, lt] = MAPPINGS;
    for sizes in whole_lists() {
        let lists = [t, p, a, b, n, la, lt, &[0, 19], &[18, 19]];
        combine(comparison, lists, |comparison, numbers| {
            let [t, p, a, b, n, la, lt, read, written] = numbers;
            let g = mapping([t, p, a, b, n, la, lt], &sizes);
            compare_copies(comparison, &g, read as usize, written as usize)
        })?;
    }
    Ok("checkpoints by sizes at and past their limits, in all combinations".to_string())
}

/// The place in storage is the index from 0, for the few mappings that are accepted: each
/// processor's elements are one run, and the runs follow one another.
fn compare_copies(
    comparison: &mut Comparison,
    g: &GenBlock,
    read: usize,
    written: usize,
) -> Outcome {
    let layout = match of_copy(g, [read, written]) {
        0 => Layout {
            m: g.clone(),
            places: (0..g.m.size as usize).collect(),
        },
        _ => Layout::unknown(g),
    };
    for direction in DIRECTIONS {
        comparison.copy(direction, &layout, &distinct_words(read), written)?;
    }
    Ok(())
}

/// T, p, a, b, n, La and Lt, with sizes.
fn mapping(numbers: [i64; 7], sizes: &Sizes) -> GenBlock {
    GenBlock {
        sizes: sizes.clone(),
        ..GenBlock::of(numbers, &[])
    }
}
