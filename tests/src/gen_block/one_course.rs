//! A law, the library held to itself: a list of p sizes of k cells each deals a template of
//! at most pk cells as blocks of k do. Only steps and tries differ.

use crate::calls::{CallFill, Calls};
use crate::comparison::{Comparison, Difference, Outcome};
use crate::gen_block::library::GenBlock;
use crate::gen_block::section_library::Fill;
use crate::gen_block::sizes::Sizes;
use crate::generator::Generator;
use crate::library::Mapping;
use crate::random_mappings::random_mapping;
use crate::random_sections::random_triplet;
use crate::section_library::{self, Triplet};

const MAPPINGS: u32 = 30_000;
const LARGEST_QUOTA: i64 = 1_000_000;
const LIST: usize = 4 * 8;

pub fn compare_mappings(comparison: &mut Comparison) -> Result<String, Difference> {
    let mut generator = Generator::new(18);
    let mut mappings = 0;
    while mappings < MAPPINGS {
        let m = random_mapping(&mut generator);
        if m.cells > m.processors * m.block {
            continue;
        }
        let sizes = vec![m.block as i32; m.processors as usize];
        let g = GenBlock {
            m,
            sizes: Sizes::of(&sizes),
        };
        let index = m.array_lower + generator.below(m.size as u64) as i64;
        compare_element(comparison, &m, &g, index)?;
        let triplet = random_triplet(&mut generator, &m);
        compare_section(comparison, &m, &g, &triplet, index)?;
        mappings += 1;
    }
    Ok(format!(
        "{MAPPINGS} mappings of one course, by blocks and by sizes"
    ))
}

/// Ownership there and back, and the owner's count.
fn compare_element(comparison: &mut Comparison, m: &Mapping, g: &GenBlock, index: i64) -> Outcome {
    let owned = m.ownership(index);
    let (processor, address) = (owned.processor.into(), owned.address.into());
    comparison.ownership(g, index, owned)?;
    comparison.going_back(g, processor, address, m.going_back(processor, address))?;
    comparison.local_count(g, processor, m.local_count(processor))
}

/// Count, the first place of an element's owner, and what a fill from there writes.
fn compare_section(
    comparison: &mut Comparison,
    m: &Mapping,
    g: &GenBlock,
    triplet: &Triplet,
    index: i64,
) -> Outcome {
    let counts = [
        m.section_steps(triplet).count,
        g.section_steps(triplet).count,
    ];
    comparison.same(counts[1], counts[0], || {
        format!("count of {triplet:?}, {g:?}")
    })?;
    let processor = m.ownership(index).processor.into();
    let first = m.first_place(triplet, processor);
    comparison.first_place(g, triplet, processor, first)?;
    let by_blocks = section_library::Fill {
        m: *m,
        triplet: *triplet,
        processor,
        place: first.place.into(),
        quota: LARGEST_QUOTA,
    };
    let by_sizes = Fill {
        g: g.clone(),
        triplet: *triplet,
        processor,
        place: first.place.into(),
        quota: LARGEST_QUOTA,
    };
    let [expected, found] = [filled(&by_blocks), filled(&by_sizes)];
    comparison.same(found, expected, || format!("{by_sizes:?}"))
}

/// Entries, place, and the list afterwards.
fn filled(fill: &impl CallFill) -> (i32, i32, [u8; LIST]) {
    let mut list = [0; LIST];
    let filled = fill.fill(&mut list);
    (filled.entries, filled.place, list)
}
