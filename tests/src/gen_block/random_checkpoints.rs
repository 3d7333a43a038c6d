//! Random arrays on random mappings over the full range of each number: saved under one
//! dealing and restored under another.

use crate::checkpoint_enumeration::Layout;
use crate::comparison::{Comparison, Difference};
use crate::enumeration::enumerate_owned;
use crate::gen_block::library::GenBlock;
use crate::gen_block::random_mappings::with_random_sizes;
use crate::gen_block::runs::Runs;
use crate::generator::Generator;
use crate::random_checkpoints::compare_lists;
use crate::random_mappings::random_mapping_of;
use crate::transfer_enumeration::Places;

pub fn compare_short_arrays(comparison: &mut Comparison) -> Result<String, Difference> {
    compare_arrays(comparison, Generator::new(16), 20_000, 60)
}

pub fn compare_long_arrays(comparison: &mut Comparison) -> Result<String, Difference> {
    compare_arrays(comparison, Generator::new(17), 30, 100_000)
}

fn compare_arrays(
    comparison: &mut Comparison,
    mut generator: Generator,
    arrays: u32,
    most_elements: u64,
) -> Result<String, Difference> {
    for _ in 0..arrays {
        let size = generator.up_to(most_elements);
        let cyclic = Layout::of(&random_mapping_of(&mut generator, size));
        let [old, new] = [(); 2].map(|()| {
            let m = random_mapping_of(&mut generator, size);
            layout(&with_random_sizes(&mut generator, m))
        });
        compare_lists(comparison, &mut generator, &old)?;
        comparison.save_and_restore(&old, &new)?;
        comparison.save_and_restore(&cyclic, &new)?;
        comparison.save_and_restore(&new, &cyclic)?;
    }
    Ok(format!(
        "{arrays} random arrays by sizes of up to {most_elements} elements, saved and restored"
    ))
}

/// The elements, one by one; the owner of each is searched.
fn layout(g: &GenBlock) -> Layout<GenBlock> {
    let (runs, array) = (Runs::of(g), g.m.array());
    let owner = |index| runs.owner(index);
    let enumeration = enumerate_owned(array.indices(), array.processors, owner);
    Layout::by_places(g, array.indices(), array.processors, &enumeration)
}
