//! Sections of arrays on every small list of sizes: count and step, each processor's
//! first place, and its whole list.

use crate::comparison::{Comparison, Difference, Outcome};
use crate::gen_block::answers;
use crate::gen_block::enumeration::{self, Dealt};
use crate::gen_block::library::GenBlock;
use crate::gen_block::questions;
use crate::gen_block::section_library::Fill;
use crate::gen_block::small_lists::{all, array, most_elements, sum, ALIGNMENTS};
use crate::memory::Memory;
use crate::section_comparison::Filling;
use crate::section_library::{Placed, Steps, Triplet};
use crate::small_bounds;

const LARGEST_STEP: i64 = 6;
/// How far the bounds of a section go beyond the array on both sides.
const BEYOND: i64 = 2;
/// One in so many arrays is compared by runs too.
const ONE_IN: usize = 11;

const LARGEST_QUOTA: i64 = 1_000_000;
const GUARD: usize = 8;

/// For each list the dense array on its whole template, and two on a shorter template with
/// the next alignments; each with the next pair of bounds.
fn arrays() -> Vec<GenBlock> {
    let mut bounds = small_bounds::in_turn();
    let mut alignments = ALIGNMENTS.into_iter().cycle();
    let mut arrays = Vec::new();
    let lists = all().into_iter().filter(|sizes| sum(sizes) > 0);
    for (number, sizes) in (0..).zip(lists) {
        let most = sum(&sizes);
        let shorter = 1 + number % most;
        let next = [(); 2].map(|()| alignments.next().expect("they go round"));
        for (cells, alignment) in [(most, [1, 0]), (shorter, next[0]), (shorter, next[1])] {
            let size = most_elements(cells, alignment);
            let bounds = bounds.next().expect("they go round");
            arrays.push(array(&sizes, cells, alignment, size, bounds));
        }
    }
    arrays
}

pub fn compare_sections(comparison: &mut Comparison) -> Result<String, Difference> {
    let mut sections = 0;
    for g in arrays() {
        let dealt = Dealt::of(&g);
        for triplet in triplets(&g) {
            compare_section(comparison, &g, &triplet, &dealt)?;
            sections += 1;
        }
    }
    Ok(format!("{sections} sections on all small lists of sizes"))
}

fn triplets(g: &GenBlock) -> impl Iterator<Item = Triplet> {
    let bounds = g.m.array_lower - BEYOND..=g.m.array_lower + g.m.size + BEYOND;
    let uppers = bounds.clone();
    bounds
        .flat_map(move |lower| uppers.clone().map(move |upper| (lower, upper)))
        .flat_map(|(lower, upper)| {
            (-LARGEST_STEP..=LARGEST_STEP).map(move |step| Triplet { lower, upper, step })
        })
}

fn compare_section(
    comparison: &mut Comparison,
    g: &GenBlock,
    triplet: &Triplet,
    dealt: &Dealt,
) -> Outcome {
    let refusal = questions::of_mapping_and_section(g, triplet);
    if refusal != 0 {
        comparison.section_steps(g, triplet, Steps::refused(refusal))?;
        comparison.first_place(g, triplet, 0, Placed::refused(refusal))?;
        let fill = whole_fill(g, triplet, 0, 0);
        return compare_fill(comparison, &fill, 1, &Filling::refused(refusal));
    }
    comparison.section_steps(g, triplet, enumeration::steps(g, triplet))?;
    for processor in 0..g.m.processors {
        let list = dealt.list(triplet, processor as u64);
        let first = list.place_after(0);
        comparison.first_place(g, triplet, processor, Placed::at(first))?;
        let fill = whole_fill(g, triplet, processor, first);
        let filling = Filling::of(&list.entries, list.end);
        compare_fill(comparison, &fill, list.entries.len() + 1, &filling)?;
    }
    Ok(())
}

fn whole_fill(g: &GenBlock, triplet: &Triplet, processor: i64, place: u64) -> Fill {
    Fill {
        g: g.clone(),
        triplet: *triplet,
        processor,
        place: place as i64,
        quota: LARGEST_QUOTA,
    }
}

fn compare_fill(
    comparison: &mut Comparison,
    fill: &Fill,
    entries: usize,
    expected: &Filling,
) -> Outcome {
    let list = GUARD..GUARD + 4 * entries;
    let mut memory = Memory::new(list.end + GUARD);
    comparison.fill(fill, &mut memory, list, expected)?;
    Ok(())
}

/// Compares the places and lists by runs with the enumeration.
pub fn compare_runs(comparison: &mut Comparison) -> Result<String, Difference> {
    for g in arrays().iter().step_by(ONE_IN) {
        let dealt = Dealt::of(g);
        let is_accepted = |triplet: &Triplet| questions::of_mapping_and_section(g, triplet) == 0;
        for triplet in triplets(g).filter(is_accepted) {
            for processor in 0..g.m.processors {
                compare_list(comparison, g, &triplet, processor, &dealt)?;
            }
        }
    }
    Ok("places and lists by runs, on small sections".to_string())
}

/// From each of the processor's places, and from the count.
fn compare_list(
    comparison: &mut Comparison,
    g: &GenBlock,
    triplet: &Triplet,
    processor: i64,
    dealt: &Dealt,
) -> Outcome {
    let list = dealt.list(triplet, processor as u64);
    let found = answers::first_place(g, triplet, processor);
    comparison.same(found, Placed::at(list.place_after(0)), || {
        format!("first place of {processor} by runs, {triplet:?}, {g:?}")
    })?;
    for taken in 0..=list.entries.len() {
        let fill = whole_fill(g, triplet, processor, list.place_after(taken));
        let found = answers::fill(&fill, list.entries.len() + 1);
        let expected = Filling::of(&list.entries[taken..], list.end);
        comparison.same(found.answer, expected.answer, || {
            format!("{fill:?} by runs")
        })?;
        comparison.same(found.addresses, expected.addresses, || {
            format!("addresses of {fill:?} by runs")
        })?;
    }
    Ok(())
}
