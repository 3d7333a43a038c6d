//! Random sections, filled by chains of fills with refused ones between them: small ones
//! compared with the enumeration, and ones at full range compared with the runs.

use crate::comparison::{Comparison, Difference, Outcome};
use crate::fill_chains::Chains;
use crate::gen_block::enumeration::{self, Dealt};
use crate::gen_block::library::GenBlock;
use crate::gen_block::random_mappings::with_random_sizes;
use crate::gen_block::runs::Runs;
use crate::gen_block::section_library::Fill;
use crate::generator::Generator;
use crate::library::Mapping;
use crate::random_bounds::with_random_bounds;
use crate::random_mappings::random_mapping;
use crate::random_sections::random_triplet;
use crate::section_enumeration::{count, element};
use crate::section_library::{Placed, Triplet};
use crate::transfer_enumeration::Places;

/// Chains on arrays that can be enumerated: how many, and up to what.
struct Kind {
    chains: u32,
    longest_list: u64,
    largest_size: u64,
}

const SHORT: Kind = Kind {
    chains: 300_000,
    longest_list: 40,
    largest_size: 300,
};
const LONG: Kind = Kind {
    chains: 4_000,
    longest_list: 4_000,
    largest_size: 20_000,
};

const SECTIONS: u32 = 60_000;
/// How many entries of a list at full range are compared.
const MOST_ENTRIES: usize = 12;
const LONGEST_LIST: u64 = 16;

pub fn compare_short_chains(comparison: &mut Comparison) -> Result<String, Difference> {
    compare_chains(Chains::new(comparison, 11, SHORT.longest_list), &SHORT)
}

pub fn compare_long_chains(comparison: &mut Comparison) -> Result<String, Difference> {
    compare_chains(Chains::new(comparison, 12, LONG.longest_list), &LONG)
}

fn compare_chains(mut chains: Chains, kind: &Kind) -> Result<String, Difference> {
    for _ in 0..kind.chains {
        let g = random_mapping_of(&mut chains.generator, kind);
        let triplet = random_triplet(&mut chains.generator, &g.m);
        compare_whole_list(&mut chains, &g, &triplet)?;
    }
    let (number, longest, words) = (kind.chains, kind.longest_list, chains.words::<Fill>());
    Ok(format!(
        "{number} chains by sizes with lists of up to {longest} entries, {words}"
    ))
}

pub fn compare_sections(comparison: &mut Comparison) -> Result<String, Difference> {
    let mut chains = Chains::new(comparison, 13, LONGEST_LIST);
    for _ in 0..SECTIONS {
        let m = random_mapping(&mut chains.generator);
        let g = with_random_sizes(&mut chains.generator, m);
        let triplet = random_triplet(&mut chains.generator, &g.m);
        compare_section(&mut chains, &g, &triplet)?;
    }
    let words = chains.words::<Fill>();
    Ok(format!(
        "{SECTIONS} random sections by sizes at full range, {words}"
    ))
}

fn random_mapping_of(generator: &mut Generator, kind: &Kind) -> GenBlock {
    let stride = generator.of_any_size(20);
    let first_cell = generator.below(50);
    let size = generator.up_to(kind.largest_size);
    let cells = stride * (size - 1) + first_cell + generator.within(1, 3);
    let processors = generator.within(1, 8);
    let numbers = [cells, processors, 0, stride, first_cell, size, 0, 0];
    let m = Mapping::of(numbers.map(|number| number as i64));
    let m = with_random_bounds(generator, &m);
    with_random_sizes(generator, m)
}

fn compare_whole_list(chains: &mut Chains, g: &GenBlock, triplet: &Triplet) -> Outcome {
    let processor = chains.generator.below(g.m.processors as u64);
    let list = Dealt::of(g).list(triplet, processor);
    let first = Placed::at(list.place_after(0));
    chains
        .comparison
        .first_place(g, triplet, processor as i64, first)?;
    chains.run(&list, fill(g, triplet, processor))
}

/// The step; a chain for a random processor, which may have no element; and one for the
/// owner of a random position, from there on.
fn compare_section(chains: &mut Chains, g: &GenBlock, triplet: &Triplet) -> Outcome {
    let steps = enumeration::steps(g, triplet);
    chains.comparison.section_steps(g, triplet, steps)?;
    let runs = Runs::of(g);
    let processor = chains.generator.below(g.m.processors as u64);
    let first = runs.first_place(triplet, processor, 0);
    chains
        .comparison
        .first_place(g, triplet, processor as i64, Placed::at(first))?;
    let list = runs.list(triplet, processor, first, MOST_ENTRIES);
    chains.run(&list, fill(g, triplet, processor))?;
    if count(triplet) == 0 {
        return Ok(());
    }
    let place = chains.generator.below(count(triplet));
    let processor = runs.owner(element(triplet, place));
    let list = runs.list(triplet, processor, place, MOST_ENTRIES);
    chains.run(&list, fill(g, triplet, processor))
}

/// A fill whose place and quota the chain decides.
fn fill(g: &GenBlock, triplet: &Triplet, processor: u64) -> Fill {
    Fill {
        g: g.clone(),
        triplet: *triplet,
        processor: processor as i64,
        place: 0,
        quota: 0,
    }
}
