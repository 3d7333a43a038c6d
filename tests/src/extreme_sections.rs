//! Large machines with distances near every special number, sections of one
//! element with the largest distances, and fills as long as quotas allow.

use std::ops::Range;

use crate::comparison::{Comparison, Difference, Outcome};
use crate::enumeration::enumerate;
use crate::fill_chains::Chains;
use crate::library::Mapping;
use crate::memory::Memory;
use crate::processor_list::{Entry, List};
use crate::questions::LARGEST_STRIDE;
use crate::random_bounds::{with_bounds, with_random_bounds};
use crate::random_sections::compare_section;
use crate::section_comparison::Filling;
use crate::section_enumeration::Section;
use crate::section_library::{Fill, Placed, Steps, Triplet};

const LARGEST: i64 = 2_147_483_647;

/// Processors and cells of a block.
const MACHINES: [(i64, i64); 9] = [
    (1, 1),
    (1, 65_536),
    (2, 65_535),
    (32, 64),
    (1_000, 1_000),
    (1_024, 1),
    (1_024, 3),
    (1_023, 65_535),
    (1_024, 65_536),
];

/// Stride and first cell.
const ALIGNMENTS: [(i64, i64); 9] = [
    (1, 0),
    (1, 5),
    (3, 0),
    (5, 1),
    (64, 7),
    (1_023, 0),
    (4_093, 11),
    (LARGEST_STRIDE - 1, 2),
    (LARGEST_STRIDE, 0),
];

/// How many entries of a list on a large machine are compared.
const MOST_ENTRIES: usize = 40;
const LONGEST_LIST: u64 = 40;

/// One-element sections of the element 0: stride, upper bound and step.
const LONE_ELEMENTS: [[i64; 3]; 5] = [
    [LARGEST_STRIDE, 0, LARGEST],
    [LARGEST_STRIDE, LARGEST - 1, LARGEST],
    [LARGEST_STRIDE, 0, -LARGEST],
    [LARGEST_STRIDE, 1 - LARGEST, -LARGEST],
    [LARGEST_STRIDE - 1, -7, 1 - LARGEST],
];

/// Their list on the owner of the element.
const LONE_ENTRY: Entry = Entry {
    position: 0,
    address: 0,
    tries: 1,
};
/// Two entries.
const SHORT_LIST: Range<usize> = 8..16;

/// Mapping, section and processor of lists that are too long for most quotas.
const LONG_SECTIONS: [([i64; 8], [i64; 3], i64); 6] = [
    (
        [3_000_000, 1, 1, 1, 0, 3_000_000, 0, 0],
        [0, 2_999_999, 1],
        0,
    ),
    (
        [9_000_000, 1, 7, 3, 2, 3_000_000, 0, 0],
        [2_999_999, 0, -1],
        0,
    ),
    (
        [9_000_000, 2, 5, 3, 1, 3_000_000, 0, 0],
        [0, 2_999_999, 1],
        1,
    ),
    (
        [3_000_000, 3, 64, 1, -1, 3_000_000, 1, 0],
        [3_000_000, 1, -1],
        2,
    ),
    (
        [9_000_000, 1, 65_536, 3, 8, 3_000_000, -7, -15],
        [-7, 2_999_992, 5],
        0,
    ),
    (
        [15_000_000, 2, 65_535, 5, 4, 3_000_000, 0, 0],
        [2_999_999, 0, -3],
        1,
    ),
];
const LARGEST_QUOTA: i64 = 1_000_000;
const QUOTAS: [i64; 6] = [3, 4, 5, 6, LARGEST_QUOTA - 1, LARGEST_QUOTA];
const REFUSED_QUOTAS: [i64; 7] = [2, 1, 0, -1, 1_000_001, i64::MIN, i64::MAX];
/// A million and one entries, and three bytes left over.
const LONG_LIST: Range<usize> = 9..4_000_016;

pub fn compare_machines(comparison: &mut Comparison) -> Result<String, Difference> {
    let mut chains = Chains::new(comparison, 6, LONGEST_LIST);
    let mut sections = 0;
    for (processors, block) in MACHINES {
        for (stride, first_cell) in ALIGNMENTS {
            let size = (LARGEST - 1 - first_cell) / stride + 1;
            let m = Mapping::of([LARGEST, processors, block, stride, first_cell, size, 0, 0]);
            let m = with_random_bounds(&mut chains.generator, &m);
            for triplet in whole_sections(&m) {
                compare_section(&mut chains, &m, triplet, MOST_ENTRIES)?;
                sections += 1;
            }
        }
    }
    let words = chains.words::<Fill>();
    Ok(format!(
        "{sections} sections of the largest arrays, {words}"
    ))
}

/// From one end of the array to the other, both ways, at distances next to
/// blocks, courses, and the largest that leaves two elements.
fn whole_sections(m: &Mapping) -> Vec<Triplet> {
    let (block, course) = (m.block, m.processors * m.block);
    let (first, last) = (m.array_lower, m.array_lower + m.size - 1);
    let near = [block, course / 2, course, 2 * course, LARGEST / 2, LARGEST];
    let lengths = near
        .iter()
        .flat_map(|distance| [distance - 1, *distance, distance + 1])
        .map(|distance| (distance / m.stride).clamp(1, m.size - 1));
    lengths
        .flat_map(|length| [[first, last, length], [last, first, -length]])
        .map(Triplet::of)
        .collect()
}

/// A distance near 2^43 is no step where there is only one element.
pub fn compare_lone_elements(comparison: &mut Comparison) -> Result<String, Difference> {
    for (processors, block) in MACHINES {
        for [stride, upper, step] in LONE_ELEMENTS {
            for cell in [0, 70_000, LARGEST - 1] {
                let m = Mapping::of([LARGEST, processors, block, stride, cell, 1, 0, 0]);
                for (lower, template_lower) in [(0, 0), (1, 1), (-1, -cell)] {
                    let m = with_bounds(&m, lower, template_lower);
                    let triplet = Triplet::of([lower, upper + lower, step]);
                    compare_lone_element(comparison, &m, &triplet)?;
                }
            }
        }
    }
    Ok("sections of one element with the largest distances".to_string())
}

fn compare_lone_element(comparison: &mut Comparison, m: &Mapping, triplet: &Triplet) -> Outcome {
    let count_alone = Steps {
        count: 1,
        ..Steps::refused(0)
    };
    comparison.section_steps(m, triplet, count_alone)?;
    let owner = m.array().owner(m.array_lower) as i64;
    for processor in 0..m.processors {
        let (place, entries): (u64, &[Entry]) = if processor == owner {
            (0, &[LONE_ENTRY])
        } else {
            (1, &[])
        };
        comparison.first_place(m, triplet, processor, Placed::at(place))?;
        let fill = Fill {
            m: *m,
            triplet: *triplet,
            processor,
            place: place as i64,
            quota: 3,
        };
        let mut memory = Memory::new(SHORT_LIST.end + SHORT_LIST.start);
        comparison.fill(&fill, &mut memory, SHORT_LIST, &Filling::of(entries, 1))?;
    }
    Ok(())
}

/// Fills of long lists by each quota, and one after another to the end.
pub fn compare_quotas(comparison: &mut Comparison) -> Result<String, Difference> {
    let mut memory = Memory::new(LONG_LIST.end + LONG_LIST.start);
    for (numbers, section, processor) in LONG_SECTIONS {
        let fill = Fill::of(numbers, section, [processor, 0, 0]);
        let list = whole_list(&fill);
        for quota in QUOTAS {
            compare_fill(comparison, &mut memory, &fill, &list, 0, quota)?;
        }
        for quota in REFUSED_QUOTAS {
            let place = list.place_after(0) as i64;
            let fill = Fill {
                place,
                quota,
                ..fill
            };
            comparison.fill(&fill, &mut memory, LONG_LIST, &Filling::refused(11))?;
        }
        let mut taken = 0;
        while taken < list.entries.len() {
            taken += compare_fill(comparison, &mut memory, &fill, &list, taken, LARGEST_QUOTA)?;
        }
    }
    Ok("fills by the least and the largest quotas".to_string())
}

fn whole_list(fill: &Fill) -> List {
    let array = fill.m.array();
    let section = Section::new(array, fill.triplet);
    section.list(fill.processor as u64, &enumerate(&array))
}

/// Compares one fill after the entries taken, and says how many it takes.
fn compare_fill(
    comparison: &mut Comparison,
    memory: &mut Memory,
    fill: &Fill,
    list: &List,
    taken: usize,
    quota: i64,
) -> Result<usize, Difference> {
    let entries = list.taken_next(taken, quota as u64, LONG_LIST.len() / 4);
    let expected = Filling::of(entries, list.place_after(taken + entries.len()));
    let place = list.place_after(taken) as i64;
    let fill = Fill {
        place,
        quota,
        ..*fill
    };
    let filled = comparison.fill(&fill, memory, LONG_LIST, &expected)?;
    Ok(filled.entries as usize)
}
