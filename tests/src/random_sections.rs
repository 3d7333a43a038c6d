//! Random sections, filled by chains of fills: small ones compared with the
//! enumeration, and ones at full range compared with the search.

use crate::comparison::{Comparison, Difference, Outcome};
use crate::enumeration::enumerate;
use crate::fill_chains::Chains;
use crate::generator::Generator;
use crate::library::Mapping;
use crate::questions::LARGEST_STRIDE;
use crate::random_bounds::with_random_bounds;
use crate::random_mappings::random_mapping;
use crate::section_enumeration::Section;
use crate::section_library::{Fill, Placed, Steps, Triplet};
use crate::section_search;

const LARGEST: i64 = 2_147_483_647;

/// Chains on arrays that can be enumerated: how many, and up to what.
struct Kind {
    chains: u32,
    longest_list: u64,
    largest_block: u64,
    largest_stride: u64,
    largest_size: u64,
}

const SHORT: Kind = Kind {
    chains: 300_000,
    longest_list: 40,
    largest_block: 12,
    largest_stride: 20,
    largest_size: 800,
};
const LONG: Kind = Kind {
    chains: 6_000,
    longest_list: 4_000,
    largest_block: 700,
    largest_stride: 20,
    largest_size: 20_000,
};
/// Lists of many periods.
const REPEATING: Kind = Kind {
    chains: 2_000,
    longest_list: 12_000,
    largest_block: 40,
    largest_stride: 20,
    largest_size: 100_000,
};
/// Moves of many kinds.
const STRIDED: Kind = Kind {
    chains: 2_000,
    longest_list: 4_000,
    largest_block: 4_000,
    largest_stride: LARGEST_STRIDE as u64,
    largest_size: 20_000,
};

const SECTIONS: u32 = 100_000;
/// How many entries of a list at full range are compared.
const MOST_ENTRIES: usize = 12;
const LONGEST_LIST: u64 = 16;

pub fn compare_short_chains(comparison: &mut Comparison) -> Result<String, Difference> {
    compare_chains(Chains::new(comparison, 3, SHORT.longest_list), &SHORT)
}

pub fn compare_long_chains(comparison: &mut Comparison) -> Result<String, Difference> {
    compare_chains(Chains::new(comparison, 4, LONG.longest_list), &LONG)
}

pub fn compare_repeating_chains(comparison: &mut Comparison) -> Result<String, Difference> {
    compare_chains(Chains::new(comparison, 24, REPEATING.longest_list), &REPEATING)
}

pub fn compare_strided_chains(comparison: &mut Comparison) -> Result<String, Difference> {
    compare_chains(Chains::new(comparison, 25, STRIDED.longest_list), &STRIDED)
}

fn compare_chains(mut chains: Chains, kind: &Kind) -> Result<String, Difference> {
    for _ in 0..kind.chains {
        let m = random_mapping_of(&mut chains.generator, kind);
        let triplet = random_triplet(&mut chains.generator, &m);
        compare_whole_list(&mut chains, &m, triplet)?;
    }
    let (number, longest, block) = (kind.chains, kind.longest_list, kind.largest_block);
    let words = chains.words::<Fill>();
    Ok(format!(
        "{number} chains with lists of up to {longest} entries and blocks of up to {block} cells, {words}"
    ))
}

pub fn compare_sections(comparison: &mut Comparison) -> Result<String, Difference> {
    let mut chains = Chains::new(comparison, 5, LONGEST_LIST);
    for _ in 0..SECTIONS {
        let m = random_mapping(&mut chains.generator);
        let triplet = random_triplet(&mut chains.generator, &m);
        compare_section(&mut chains, &m, triplet, MOST_ENTRIES)?;
    }
    let words = chains.words::<Fill>();
    Ok(format!("{SECTIONS} random sections at full range, {words}"))
}

fn random_mapping_of(generator: &mut Generator, kind: &Kind) -> Mapping {
    let block = generator.within(1, kind.largest_block);
    let stride = match generator.below(3) {
        0 => 1,
        1 => generator.within(1, kind.largest_stride),
        _ => (block * generator.within(1, 3)).min(LARGEST_STRIDE as u64),
    };
    let first_cell = generator.below(50);
    let size = generator.up_to(kind.largest_size);
    let cells = stride * (size - 1) + first_cell + generator.within(1, 3);
    let processors = generator.within(1, 8);
    let numbers = [cells, processors, block, stride, first_cell, size, 0, 0];
    with_random_bounds(generator, &Mapping::of(numbers.map(|number| number as i64)))
}

/// An accepted section from one random element towards another. Its upper bound
/// goes less than a step beyond its last element. Now and then it is empty.
pub fn random_triplet(generator: &mut Generator, m: &Mapping) -> Triplet {
    let size = m.size as u64;
    let lower = m.array_lower + generator.below(size) as i64;
    let towards = m.array_lower + generator.below(size) as i64;
    let length = match generator.below(2) {
        0 => generator.within(1, size.min(12)),
        _ => generator.of_any_size(size),
    };
    let direction = if towards < lower { -1 } else { 1 };
    if generator.below(20) == 0 {
        return Triplet {
            lower,
            upper: (towards + direction).clamp(-LARGEST, LARGEST),
            step: -direction * length as i64,
        };
    }
    let step = direction * length as i64;
    let last = lower + (towards - lower) / step * step;
    let beyond = direction * generator.below(length) as i64;
    Triplet {
        lower,
        upper: (last + beyond).clamp(-LARGEST, LARGEST),
        step,
    }
}

fn compare_whole_list(chains: &mut Chains, m: &Mapping, triplet: Triplet) -> Outcome {
    let array = m.array();
    let section = Section::new(array, triplet);
    let processor = chains.generator.below(array.processors);
    let list = section.list(processor, &enumerate(&array));
    let first = Placed::at(list.place_after(0));
    chains
        .comparison
        .first_place(m, &triplet, processor as i64, first)?;
    chains.run(&list, fill(m, &section, processor))
}

/// Compares the steps, and two lists as far as so many entries.
pub fn compare_section(chains: &mut Chains, m: &Mapping, triplet: Triplet, most: usize) -> Outcome {
    let section = section_search::section(m.array(), triplet);
    let steps = Steps::of(&section);
    chains.comparison.section_steps(m, &triplet, steps)?;
    compare_from_first_place(chains, m, &section, most)?;
    compare_from_any_place(chains, m, &section, most)
}

/// A chain for a random processor, which may have no element.
fn compare_from_first_place(
    chains: &mut Chains,
    m: &Mapping,
    section: &Section,
    most: usize,
) -> Outcome {
    let processor = chains.generator.below(section.array.processors);
    let first = section_search::place(section, processor, 0);
    chains
        .comparison
        .first_place(m, &section.triplet, processor as i64, Placed::at(first))?;
    let list = section_search::list(section, processor, first, most);
    chains.run(&list, fill(m, section, processor))
}

/// A chain for the owner of a random position, from there on.
fn compare_from_any_place(
    chains: &mut Chains,
    m: &Mapping,
    section: &Section,
    most: usize,
) -> Outcome {
    let count = section.count();
    if count == 0 {
        return Ok(());
    }
    let place = chains.generator.below(count);
    let processor = section.owner(place);
    let list = section_search::list(section, processor, place, most);
    chains.run(&list, fill(m, section, processor))
}

/// A fill whose place and quota the chain decides.
fn fill(m: &Mapping, section: &Section, processor: u64) -> Fill {
    Fill {
        m: *m,
        triplet: section.triplet,
        processor: processor as i64,
        place: 0,
        quota: 0,
    }
}
