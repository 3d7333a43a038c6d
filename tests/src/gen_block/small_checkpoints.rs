//! Checkpoints and restores of arrays on every small list of sizes; and arrays that are
//! saved under one dealing and restored under another.

use crate::checkpoint_enumeration::Layout;
use crate::comparison::{Comparison, Difference, Outcome};
use crate::gen_block::enumeration::Dealt;
use crate::gen_block::library::GenBlock;
use crate::gen_block::small_lists::{all, array, most_elements, sum, ALIGNMENTS};
use crate::library::Mapping;
use crate::small_bounds::{self, with_bounds};
use crate::small_checkpoints::compare_lists;
use crate::small_mappings::{largest_arrays, mapping, MOST_CELLS};

/// One in so many lists and cyclic mappings is saved under each and restored under each
/// other, in these sizes.
const ONE_LIST_IN: usize = 31;
const ONE_MAPPING_IN: usize = 19;
const SIZES: [i64; 4] = [0, 1, 3, 7];

/// Each template has the next alignment and the next pair of bounds.
pub fn compare_arrays(comparison: &mut Comparison) -> Result<String, Difference> {
    let mut bounds = small_bounds::in_turn();
    let mut alignments = ALIGNMENTS.into_iter().cycle();
    let mut arrays = 0;
    for sizes in all() {
        for (cells, bounds) in (1..=sum(&sizes)).zip(&mut bounds) {
            let alignment = alignments.next().expect("they go round");
            let most = most_elements(cells, alignment);
            for size in [0, most / 2, most] {
                let g = array(&sizes, cells, alignment, size, bounds);
                compare_lists(comparison, &layout(&g))?;
                arrays += 1;
            }
        }
    }
    Ok(format!(
        "{arrays} arrays by sizes, saved and restored with lists of each length"
    ))
}

fn layout(g: &GenBlock) -> Layout<GenBlock> {
    Dealt::of(g).layout(g)
}

/// Each mapping has the next pair of bounds.
pub fn compare_moves(comparison: &mut Comparison) -> Result<String, Difference> {
    let mut moves = 0;
    for size in SIZES {
        let by_sizes = layouts_by_sizes(size);
        for new in &by_sizes {
            for old in &by_sizes {
                comparison.save_and_restore(old, new)?;
            }
            for old in cyclic_layouts(size) {
                compare_both_ways(comparison, &old, new)?;
            }
        }
        moves += by_sizes.len();
    }
    Ok(format!(
        "{moves} small arrays by sizes, saved and restored under other mappings"
    ))
}

fn compare_both_ways(
    comparison: &mut Comparison,
    cyclic: &Layout<Mapping>,
    by_sizes: &Layout<GenBlock>,
) -> Outcome {
    comparison.save_and_restore(cyclic, by_sizes)?;
    comparison.save_and_restore(by_sizes, cyclic)
}

/// Dense arrays that begin with cell 0, where they fit.
fn layouts_by_sizes(size: i64) -> Vec<Layout<GenBlock>> {
    let fits = |sizes: &&Vec<i32>| sum(sizes) >= size.max(1);
    all()
        .iter()
        .step_by(ONE_LIST_IN)
        .filter(fits)
        .zip(small_bounds::in_turn())
        .map(|(sizes, bounds)| layout(&array(sizes, sum(sizes), [1, 0], size, bounds)))
        .collect()
}

fn cyclic_layouts(size: i64) -> Vec<Layout<Mapping>> {
    largest_arrays()
        .iter()
        .step_by(ONE_MAPPING_IN)
        .zip(small_bounds::in_turn())
        .map(|(array, bounds)| mapping(MOST_CELLS, &with_bounds(array, bounds), size as u64))
        .map(|m| Layout::of(&m))
        .collect()
}
