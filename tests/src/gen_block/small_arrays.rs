//! Every small list of sizes, on every template that it can be dealt to and one cell
//! more: each element there and back, each processor's count, and the refusals at the
//! ends.

use crate::calls::Calls;
use crate::comparison::{Comparison, Difference, Outcome};
use crate::enumeration::Place;
use crate::gen_block::answers;
use crate::gen_block::enumeration::Dealt;
use crate::gen_block::library::GenBlock;
use crate::gen_block::small_lists::{all, array, most_elements, sum, ALIGNMENTS};
use crate::library::{Counted, Found, Mapping, Owned};
use crate::small_bounds;
use crate::small_mappings::compare_array;

/// Every size that fits, and the first that does not. Each has the next pair of bounds.
pub fn compare_arrays(comparison: &mut Comparison) -> Result<String, Difference> {
    let mut bounds = small_bounds::in_turn();
    let mut arrays = 0;
    for sizes in all() {
        for cells in 1..=sum(&sizes) {
            for (alignment, bounds) in ALIGNMENTS.into_iter().zip(&mut bounds) {
                let most = most_elements(cells, alignment);
                let largest = array(&sizes, cells, alignment, most, bounds);
                arrays += compare_sizes(comparison, &largest)?;
            }
        }
        let cells = sum(&sizes) + 1;
        compare_refused(comparison, &array(&sizes, cells, [1, 0], 1, [0, 0]), 16)?;
    }
    Ok(format!("{arrays} arrays on all small lists of sizes"))
}

/// Smaller arrays have the first elements of the largest, at the same places.
fn compare_sizes(comparison: &mut Comparison, largest: &GenBlock) -> Result<i64, Difference> {
    let dealt = Dealt::of(largest);
    let most = largest.m.size;
    for size in 0..=most {
        let g = largest.with(Mapping { size, ..largest.m });
        compare_array(comparison, &g, &dealt.enumeration)?;
    }
    let size = most + 1;
    let past = largest.with(Mapping { size, ..largest.m });
    compare_refused(comparison, &past, 5)?;
    Ok(most + 2)
}

fn compare_refused(comparison: &mut Comparison, g: &GenBlock, refusal: i32) -> Outcome {
    comparison.same(g.refusal(), refusal, || format!("questions of {g:?}"))?;
    comparison.ownership(g, g.m.array_lower, Owned::refused(refusal))?;
    comparison.local_count(g, 0, Counted::refused(refusal))?;
    comparison.going_back(g, 0, 0, Found::refused(refusal))
}

/// Compares the answers by runs with the enumeration.
pub fn compare_runs(comparison: &mut Comparison) -> Result<String, Difference> {
    let mut bounds = small_bounds::in_turn();
    for sizes in all() {
        for cells in 1..=sum(&sizes) {
            for (alignment, bounds) in ALIGNMENTS.into_iter().step_by(2).zip(&mut bounds) {
                let most = most_elements(cells, alignment);
                let g = array(&sizes, cells, alignment, most, bounds);
                compare_places(comparison, &g)?;
            }
        }
    }
    Ok("owners and addresses by runs, on all small lists of sizes".to_string())
}

fn compare_places(comparison: &mut Comparison, g: &GenBlock) -> Outcome {
    let dealt = Dealt::of(g);
    let indices = g.m.array().indices();
    for index in indices.clone() {
        let expected = dealt.enumeration.place(index);
        let found = answers::ownership(g, index);
        comparison.same(found, Owned::at(expected), || {
            format!("place of {index} by runs, {g:?}")
        })?;
        let Place { processor, address } = expected;
        let found = answers::going_back(g, processor as i64, address as i64);
        comparison.same(found, Found::element(index), || {
            format!("element at {expected:?} by runs, {g:?}")
        })?;
    }
    for processor in 0..g.m.processors {
        let held = dealt.enumeration.held_below(indices.end, processor as u64);
        let found = answers::local_count(g, processor);
        comparison.same(found, Counted::elements(held.len() as u64), || {
            format!("elements of processor {processor} by runs, {g:?}")
        })?;
    }
    Ok(())
}
