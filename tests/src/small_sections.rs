//! Every small section on small mappings: its count and steps, each processor's
//! first place, and each processor's whole list with its tries.

use crate::comparison::{Comparison, Difference, Outcome};
use crate::enumeration::{enumerate, Array, Enumeration};
use crate::library::Mapping;
use crate::memory::Memory;
use crate::questions;
use crate::section_comparison::Filling;
use crate::section_enumeration::{walk, Section};
use crate::section_library::{Fill, Placed, Steps, Triplet};
use crate::section_search;
use crate::small_bounds::{self, with_bounds};

const LARGEST_SIZE: u64 = 24;
const LARGEST_STEP: i64 = 7;
/// How far the bounds of a section go beyond the array on both sides.
const BEYOND: i64 = 3;

const PROCESSORS: [u64; 4] = [1, 2, 3, 5];
const BLOCKS: [u64; 5] = [1, 2, 3, 4, 6];
/// Stride and first cell.
const ALIGNMENTS: [(u64, i64); 6] = [(1, 0), (1, 3), (2, 1), (3, 0), (5, 2), (6, 5)];

/// One in so many arrays, and the sizes, that are tried with every pair of bounds.
const ONE_IN: usize = 17;
const SOME_SIZES: [u64; 3] = [0, 1, 7];

const LARGEST_QUOTA: i64 = 1_000_000;
const GUARD: usize = 8;

/// Each size has the next pair of lower bounds.
pub fn compare_sections(comparison: &mut Comparison) -> Result<String, Difference> {
    let mut bounds = small_bounds::in_turn();
    let mut sections = 0;
    for array in arrays() {
        for (size, bounds) in (0..=LARGEST_SIZE).zip(&mut bounds) {
            sections += compare_size(comparison, &with_bounds(&array, bounds), size)?;
        }
    }
    Ok(format!("{sections} small sections, every list"))
}

/// The same on some arrays, with every pair of bounds.
pub fn compare_bounds(comparison: &mut Comparison) -> Result<String, Difference> {
    let mut sections = 0;
    for array in arrays().iter().step_by(ONE_IN) {
        for bounds in small_bounds::ALL {
            for size in SOME_SIZES {
                sections += compare_size(comparison, &with_bounds(array, bounds), size)?;
            }
        }
    }
    Ok(format!(
        "{sections} small sections, with every pair of bounds"
    ))
}

/// All sections of an array's first elements. Says how many.
fn compare_size(comparison: &mut Comparison, array: &Array, size: u64) -> Result<u64, Difference> {
    let enumeration = enumerate(array);
    let m = mapping(array, size);
    let mut sections = 0;
    for triplet in triplets(&m) {
        compare_section(comparison, &m, &triplet, &enumeration)?;
        sections += 1;
    }
    Ok(sections)
}

/// Compares the search of steps and places with the enumeration.
pub fn compare_searches(comparison: &mut Comparison) -> Result<String, Difference> {
    for (array, bounds) in arrays().iter().zip(small_bounds::in_turn()) {
        let array = with_bounds(array, bounds);
        let m = mapping(&array, LARGEST_SIZE);
        for triplet in triplets(&m) {
            if questions::of_mapping_and_section(&m, &triplet) == 0 {
                compare_search(comparison, array, triplet)?;
            }
        }
    }
    Ok("search of steps and places, on the small sections".to_string())
}

fn arrays() -> Vec<Array> {
    let mut arrays = Vec::new();
    for processors in PROCESSORS {
        for block in BLOCKS {
            for (stride, offset) in ALIGNMENTS {
                arrays.push(Array {
                    processors,
                    block,
                    stride,
                    offset,
                    size: LARGEST_SIZE,
                    array_lower: 0,
                    template_lower: 0,
                });
            }
        }
    }
    arrays
}

/// The first elements of an array, on a template that the whole array fits.
fn mapping(array: &Array, size: u64) -> Mapping {
    Mapping {
        cells: array.cell(array.indices().end) as i64,
        processors: array.processors as i64,
        block: array.block as i64,
        stride: array.stride as i64,
        offset: array.offset,
        size: size as i64,
        array_lower: array.array_lower,
        template_lower: array.template_lower,
    }
}

fn triplets(m: &Mapping) -> impl Iterator<Item = Triplet> {
    let bounds = m.array_lower - BEYOND..=m.array_lower + m.size + BEYOND;
    let steps = -LARGEST_STEP..=LARGEST_STEP;
    bounds.clone().flat_map(move |lower| {
        let steps = steps.clone();
        bounds.clone().flat_map(move |upper| {
            steps
                .clone()
                .map(move |step| Triplet { lower, upper, step })
        })
    })
}

fn compare_section(
    comparison: &mut Comparison,
    m: &Mapping,
    triplet: &Triplet,
    enumeration: &Enumeration,
) -> Outcome {
    let refusal = questions::of_mapping_and_section(m, triplet);
    if refusal != 0 {
        return compare_refused(comparison, m, triplet, refusal);
    }
    let array = m.array();
    let section = Section::new(array, *triplet);
    comparison.section_steps(m, triplet, Steps::of(&section))?;
    for processor in 0..array.processors {
        compare_list(comparison, m, &section, processor, enumeration)?;
    }
    Ok(())
}

fn compare_refused(
    comparison: &mut Comparison,
    m: &Mapping,
    triplet: &Triplet,
    refusal: i32,
) -> Outcome {
    let fill = whole_fill(m, triplet, 0, 0);
    comparison.section_steps(m, triplet, Steps::refused(refusal))?;
    comparison.first_place(m, triplet, 0, Placed::refused(refusal))?;
    compare_fill(comparison, &fill, 1, &Filling::refused(refusal))
}

/// The first place, and a fill from there of the whole list, with an entry to
/// spare.
fn compare_list(
    comparison: &mut Comparison,
    m: &Mapping,
    section: &Section,
    processor: u64,
    enumeration: &Enumeration,
) -> Outcome {
    let list = section.list(processor, enumeration);
    let first = list.place_after(0);
    comparison.first_place(m, &section.triplet, processor as i64, Placed::at(first))?;
    let fill = whole_fill(m, &section.triplet, processor, first);
    let filling = Filling::of(&list.entries, list.end);
    compare_fill(comparison, &fill, list.entries.len() + 1, &filling)
}

fn whole_fill(m: &Mapping, triplet: &Triplet, processor: u64, place: u64) -> Fill {
    Fill {
        m: *m,
        triplet: *triplet,
        processor: processor as i64,
        place: place as i64,
        quota: LARGEST_QUOTA,
    }
}

fn compare_fill(
    comparison: &mut Comparison,
    fill: &Fill,
    entries: usize,
    expected: &Filling,
) -> Outcome {
    let list = GUARD..GUARD + 4 * entries;
    let mut memory = Memory::new(list.end + GUARD);
    comparison.fill(fill, &mut memory, list, expected)?;
    Ok(())
}

fn compare_search(comparison: &mut Comparison, array: Array, triplet: Triplet) -> Outcome {
    let section = section_search::section(array, triplet);
    comparison.same(section.walk, walk(&array, &triplet), || {
        format!("search of steps of {triplet:?}, {array:?}")
    })?;
    for processor in 0..array.processors {
        for start in 0..=section.count() {
            compare_places(comparison, &section, processor, start)?;
        }
    }
    Ok(())
}

fn compare_places(
    comparison: &mut Comparison,
    section: &Section,
    processor: u64,
    start: u64,
) -> Outcome {
    let is_owned = |&position: &u64| section.owner(position) == processor;
    let count = section.count();
    let expected = (start..count).find(is_owned).unwrap_or(count);
    let ways = [
        section_search::place_by_elements,
        section_search::place_by_courses,
    ];
    for way in ways {
        comparison.same(way(section, processor, start), expected, || {
            format!("search of the place of processor {processor} from {start}, {section:?}")
        })?;
    }
    Ok(())
}
