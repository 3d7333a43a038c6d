//! Checkpoints and restores of every small mapping, with lists that are too short, exact
//! and longer; and arrays that are saved under one mapping and restored under another.

use crate::calls::Calls;
use crate::checkpoint_comparison::distinct_words;
use crate::checkpoint_enumeration::Layout;
use crate::checkpoint_library::DIRECTIONS;
use crate::comparison::{Comparison, Difference, Outcome};
use crate::library::Mapping;
use crate::small_bounds::{self, with_bounds};
use crate::small_mappings::{largest_arrays, mapping, most_elements, MOST_CELLS};

/// One in so many arrays is saved under each mapping and restored under each other, in
/// these sizes, which they all have room for.
const ONE_IN: usize = 3;
const SIZES: [u64; 4] = [0, 1, 5, 8];

/// Every size that fits, and the first that does not. Each template has the next pair
/// of bounds.
pub fn compare_mappings(comparison: &mut Comparison) -> Result<String, Difference> {
    let mut bounds = small_bounds::in_turn();
    let mut mappings = 0;
    for array in largest_arrays() {
        for (cells, bounds) in (1..=MOST_CELLS).zip(&mut bounds) {
            let array = with_bounds(&array, bounds);
            let most = most_elements(cells, &array);
            for size in 0..=most {
                compare_lists(comparison, &Layout::of(&mapping(cells, &array, size)))?;
            }
            compare_off_template(comparison, &mapping(cells, &array, most + 1))?;
            mappings += most + 2;
        }
    }
    Ok(format!(
        "{mappings} small mappings, saved and restored with lists of each length"
    ))
}

/// With each list too short by one, no lists, exact lists and longer ones, and then
/// there and back.
pub fn compare_lists(comparison: &mut Comparison, layout: &Layout<impl Calls>) -> Outcome {
    let n = layout.places.len();
    let short = [[n.max(1) - 1, n], [n, n.max(1) - 1], [0, 0]];
    let enough = [[n, n], [n + 1, n + 2], [n + 2, n]];
    for [from, room] in short.into_iter().chain(enough) {
        for direction in DIRECTIONS {
            comparison.copy(direction, layout, &distinct_words(from), room)?;
        }
    }
    comparison.save_and_restore(layout, layout)
}

fn compare_off_template(comparison: &mut Comparison, m: &Mapping) -> Outcome {
    let n = m.size as usize;
    for direction in DIRECTIONS {
        comparison.copy(direction, &Layout::unknown(m), &distinct_words(n), n)?;
    }
    Ok(())
}

/// Each mapping has the next pair of bounds, and the template ends with the last element.
pub fn compare_moves(comparison: &mut Comparison) -> Result<String, Difference> {
    let mut moves = 0;
    for size in SIZES {
        let layouts: Vec<Layout<Mapping>> = largest_arrays()
            .iter()
            .step_by(ONE_IN)
            .zip(small_bounds::in_turn())
            .map(|(array, bounds)| mapping(MOST_CELLS, &with_bounds(array, bounds), size))
            .map(|m| Layout::of(&m))
            .collect();
        for old in &layouts {
            for new in &layouts {
                comparison.save_and_restore(old, new)?;
                moves += 1;
            }
        }
    }
    Ok(format!(
        "{moves} small arrays saved under one mapping and restored under another"
    ))
}
