//! The largest templates and lists of sizes, with sums up to 1,024 times 2,147,483,647: the
//! elements at each border of two runs, and each processor's part of long sections; and
//! fills by the least and the largest quotas.

use std::ops::Range;

use crate::comparison::{Comparison, Difference, Outcome};
use crate::gen_block::answers;
use crate::gen_block::enumeration::{self, Dealt};
use crate::gen_block::library::GenBlock;
use crate::gen_block::runs::Runs;
use crate::gen_block::section_library::Fill;
use crate::library::{Counted, Found, Owned};
use crate::memory::Memory;
use crate::processor_list::List;
use crate::questions::LARGEST_STRIDE;
use crate::section_comparison::Filling;
use crate::section_library::{Placed, Triplet};
use crate::transfer_enumeration::Places;

const LARGEST: i64 = 2_147_483_647;
const MAX: i32 = i32::MAX;
const MOST: usize = 1_024;

/// Stride and declared bounds.
const ALIGNMENTS: [[i64; 3]; 5] = [
    [1, 0, 0],
    [1, 1, 1],
    [3, -5, 0],
    [4_093, 0, -LARGEST],
    [LARGEST_STRIDE, 0, 0],
];

/// Sizes, a section of 3,000,000 elements on as many cells, and a processor whose list is
/// too long for most quotas.
const LONG_SECTIONS: [([i32; 3], [i64; 3], i64); 3] = [
    ([1_500_000, 0, 1_500_000], [0, 2_999_999, 1], 2),
    ([0, 3_000_001, 5], [2_999_999, 0, -1], 1),
    ([7, MAX, MAX], [3, 2_999_999, 2], 1),
];
const LARGEST_QUOTA: i64 = 1_000_000;
const QUOTAS: [i64; 6] = [3, 4, 5, 6, LARGEST_QUOTA - 1, LARGEST_QUOTA];
/// A million and one entries, and three bytes left over.
const LONG_LIST: Range<usize> = 9..4_000_016;

/// Lists for the largest template.
fn lists() -> Vec<Vec<i32>> {
    let mut last_alone = vec![0; MOST];
    last_alone[MOST - 1] = MAX;
    let growing = (0..MOST as i32).map(|processor| 64 + 4_200 * processor);
    let in_turn = (0..MOST as i32).map(|processor| (processor % 2) << 22);
    vec![
        vec![MAX],
        vec![MAX, MAX],
        vec![0, MAX, 0],
        vec![1, 0, MAX - 1],
        vec![MAX - 1, 1],
        vec![MAX; MOST],
        last_alone,
        vec![1 << 21; MOST],
        growing.collect(),
        in_turn.collect(),
    ]
}

/// As many elements as the template has room for, the first on cell 0.
fn mapping(sizes: &[i32], [a, la, lt]: [i64; 3]) -> GenBlock {
    let (p, n) = (sizes.len() as i64, (LARGEST - 1) / a + 1);
    GenBlock::of([LARGEST, p, a, lt - a * la, n, la, lt], sizes)
}

pub fn compare_mappings(comparison: &mut Comparison) -> Result<String, Difference> {
    let lists = lists();
    for sizes in &lists {
        for alignment in ALIGNMENTS {
            let g = mapping(sizes, alignment);
            let runs = Runs::of(&g);
            for processor in 0..sizes.len() as u64 {
                compare_held(comparison, &g, &runs, processor)?;
            }
            for triplet in sections(&g) {
                compare_section(comparison, &g, &runs, &triplet)?;
            }
        }
    }
    let lists = lists.len();
    Ok(format!("{lists} lists of sizes for the largest template"))
}

/// The count, and the first and the last element there and back.
fn compare_held(comparison: &mut Comparison, g: &GenBlock, runs: &Runs, processor: u64) -> Outcome {
    let Range { start, end } = runs.held(processor);
    let (number, elements) = (processor as i64, end - start);
    comparison.local_count(g, number, Counted::elements(elements as u64))?;
    comparison.going_back(g, number, elements, Found::refused(9))?;
    if start == end {
        return Ok(());
    }
    for index in [start, end - 1] {
        comparison.ownership(g, index, Owned::at(runs.place(index)))?;
        comparison.going_back(g, number, index - start, Found::element(index))?;
    }
    Ok(())
}

/// From one end of the array to the other, both ways.
fn sections(g: &GenBlock) -> Vec<Triplet> {
    let (first, last) = (g.m.array_lower, g.m.array_lower + g.m.size - 1);
    let lengths = [1, 7, 2_097_151, g.m.size / 3, g.m.size - 1];
    lengths
        .map(|length| length.clamp(1, g.m.size - 1))
        .into_iter()
        .flat_map(|length| [[first, last, length], [last, first, -length]])
        .map(Triplet::of)
        .collect()
}

/// The step, and each processor's first place and first entries.
fn compare_section(
    comparison: &mut Comparison,
    g: &GenBlock,
    runs: &Runs,
    triplet: &Triplet,
) -> Outcome {
    comparison.section_steps(g, triplet, enumeration::steps(g, triplet))?;
    for processor in 0..g.m.processors {
        let first = runs.first_place(triplet, processor as u64, 0);
        comparison.first_place(g, triplet, processor, Placed::at(first))?;
        if processor % 64 > 1 {
            continue;
        }
        let fill = fill(g, triplet, [processor, first as i64, 5]);
        let expected = answers::fill(&fill, 4);
        comparison.fill(&fill, &mut Memory::new(32), 7..23, &expected)?;
    }
    Ok(())
}

/// Fills of long lists by each quota, and one after another to the end.
pub fn compare_quotas(comparison: &mut Comparison) -> Result<String, Difference> {
    let mut memory = Memory::new(LONG_LIST.end + LONG_LIST.start);
    for (sizes, section, processor) in LONG_SECTIONS {
        let g = GenBlock::of([3_000_000, 3, 1, 0, 3_000_000, 0, 0], &sizes);
        let triplet = Triplet::of(section);
        let list = Dealt::of(&g).list(&triplet, processor as u64);
        let fill = fill(&g, &triplet, [processor, 0, 0]);
        for quota in QUOTAS {
            compare_fill(comparison, &mut memory, &fill, &list, 0, quota)?;
        }
        let mut taken = 0;
        while taken < list.entries.len() {
            taken += compare_fill(comparison, &mut memory, &fill, &list, taken, LARGEST_QUOTA)?;
        }
    }
    Ok("fills by sizes, by the least and the largest quotas".to_string())
}

/// Compares one fill after the entries taken, and says how many it takes.
fn compare_fill(
    comparison: &mut Comparison,
    memory: &mut Memory,
    fill: &Fill,
    list: &List,
    taken: usize,
    quota: i64,
) -> Result<usize, Difference> {
    let entries = list.taken_next(taken, quota as u64, LONG_LIST.len() / 4);
    let expected = Filling::of(entries, list.place_after(taken + entries.len()));
    let place = list.place_after(taken) as i64;
    let fill = Fill {
        place,
        quota,
        ..fill.clone()
    };
    let filled = comparison.fill(&fill, memory, LONG_LIST, &expected)?;
    Ok(filled.entries as usize)
}

fn fill(g: &GenBlock, triplet: &Triplet, [processor, place, quota]: [i64; 3]) -> Fill {
    Fill {
        g: g.clone(),
        triplet: *triplet,
        processor,
        place,
        quota,
    }
}
