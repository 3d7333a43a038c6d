//! Random arrays on random mappings over the full range of each number, bounds too:
//! both calls, and saved under one mapping and restored under another.

use crate::calls::Calls;
use crate::checkpoint_comparison::distinct_words;
use crate::checkpoint_enumeration::Layout;
use crate::checkpoint_library::DIRECTIONS;
use crate::comparison::{Comparison, Difference, Outcome};
use crate::generator::Generator;
use crate::random_mappings::random_mapping_of;

pub fn compare_short_arrays(comparison: &mut Comparison) -> Result<String, Difference> {
    compare_arrays(comparison, Generator::new(8), 50_000, 60)
}

pub fn compare_long_arrays(comparison: &mut Comparison) -> Result<String, Difference> {
    compare_arrays(comparison, Generator::new(9), 300, 100_000)
}

fn compare_arrays(
    comparison: &mut Comparison,
    mut generator: Generator,
    arrays: u32,
    most_elements: u64,
) -> Result<String, Difference> {
    for _ in 0..arrays {
        let size = generator.up_to(most_elements);
        let mappings = [(); 2].map(|()| random_mapping_of(&mut generator, size));
        let [old, new] = mappings.map(|m| Layout::of(&m));
        compare_lists(comparison, &mut generator, &old)?;
        comparison.save_and_restore(&old, &new)?;
        comparison.save_and_restore(&new, &new)?;
    }
    Ok(format!(
        "{arrays} random arrays of up to {most_elements} elements, saved and restored"
    ))
}

/// Lists from one word too short to some words longer.
pub fn compare_lists(
    comparison: &mut Comparison,
    generator: &mut Generator,
    layout: &Layout<impl Calls>,
) -> Outcome {
    let fewest = layout.places.len() - 1;
    for direction in DIRECTIONS {
        let [from, room] = [(); 2].map(|()| fewest + generator.below(6) as usize);
        comparison.copy(direction, layout, &distinct_words(from), room)?;
    }
    Ok(())
}
