//! Random grids, filled by chains of fills: those that can be enumerated compared with the
//! enumeration, and those at full range with the answers of their dimensions.

use crate::comparison::{Comparison, Difference, Outcome};
use crate::fill_chains::Chains;
use crate::gen_block::random_mappings::with_random_sizes;
use crate::gen_block::sizes::Sizes;
use crate::gen_block::transfer_library::Side;
use crate::generator::Generator;
use crate::grids::answers;
use crate::grids::enumeration::Enumerated;
use crate::grids::library::{Fill, Grid, GridFound, DIMENSIONS};
use crate::grids::questions::{owner_at, processors, section_count};
use crate::library::{Mapping, Owned};
use crate::random_bounds::with_random_bounds;
use crate::random_mappings::random_mapping_of;
use crate::random_sections::random_triplet;
use crate::section_library::{Placed, Triplet};

const LARGEST: u64 = 2_147_483_647;
const MOST_PROCESSORS: u64 = 1_024;

/// Chains on grids that can be enumerated: how many, and up to what.
struct Kind {
    chains: u32,
    longest_list: u64,
    largest_block: u64,
    most_elements: u64,
    most_processors: u64,
}

const SHORT: Kind = Kind {
    chains: 60_000,
    longest_list: 40,
    largest_block: 9,
    most_elements: 600,
    most_processors: 12,
};
const LONG: Kind = Kind {
    chains: 400,
    longest_list: 5_000,
    largest_block: 80,
    most_elements: 200_000,
    most_processors: 40,
};

const SECTIONS: u32 = 12_000;
/// How many entries of a list at full range are compared.
const MOST_ENTRIES: usize = 9;
const LONGEST_LIST: u64 = 12;
/// How many elements of a long array are compared.
const ELEMENTS: u32 = 100;

pub fn compare_short_chains(comparison: &mut Comparison) -> Result<String, Difference> {
    compare_chains(Chains::new(comparison, 32, SHORT.longest_list), &SHORT)
}

pub fn compare_long_chains(comparison: &mut Comparison) -> Result<String, Difference> {
    compare_chains(Chains::new(comparison, 33, LONG.longest_list), &LONG)
}

fn compare_chains(mut chains: Chains, kind: &Kind) -> Result<String, Difference> {
    for _ in 0..kind.chains {
        let grid = random_small_grid(&mut chains.generator, kind);
        compare_enumerated(&mut chains, &grid)?;
    }
    let (number, longest, words) = (kind.chains, kind.longest_list, chains.words::<Fill>());
    Ok(format!(
        "{number} chains on grids with lists of up to {longest} entries, {words}"
    ))
}

pub fn compare_sections(comparison: &mut Comparison) -> Result<String, Difference> {
    let mut chains = Chains::new(comparison, 34, LONGEST_LIST);
    for _ in 0..SECTIONS {
        let grid = random_grid(&mut chains.generator);
        compare_at_full_range(&mut chains, &grid)?;
    }
    let words = chains.words::<Fill>();
    Ok(format!(
        "{SECTIONS} random sections of grids at full range, {words}"
    ))
}

/// Any rank, and each dimension of what the others leave of elements and processors.
fn random_dimensions(
    generator: &mut Generator,
    most_elements: u64,
    most_processors: u64,
    side: impl Fn(&mut Generator, u64, u64) -> Side,
) -> Grid {
    let rank = generator.within(1, DIMENSIONS as u64);
    let (mut elements, mut processors) = (most_elements, most_processors);
    let mut sides = Vec::new();
    for _ in 0..rank {
        let (size, number) = (generator.up_to(elements), generator.up_to(processors));
        sides.push(side(generator, size, number));
        elements /= size;
        processors /= number;
    }
    let turned = generator.below(rank) as usize;
    sides.rotate_left(turned);
    Grid::of(&sides)
}

fn random_small_grid(generator: &mut Generator, kind: &Kind) -> Grid {
    let (elements, processors) = (kind.most_elements, kind.most_processors);
    random_dimensions(
        generator,
        elements,
        processors,
        |generator, size, number| {
            let block = generator.within(1, kind.largest_block);
            let stride = generator.of_any_size(12);
            let first_cell = generator.below(20);
            let cells = stride * (size - 1) + first_cell + generator.within(1, 3);
            let numbers = [cells, number, block, stride, first_cell, size, 0, 0];
            let m = Mapping::of(numbers.map(|number| number as i64));
            let m = with_random_bounds(generator, &m);
            random_side(generator, m)
        },
    )
}

fn random_grid(generator: &mut Generator) -> Grid {
    random_dimensions(
        generator,
        LARGEST,
        MOST_PROCESSORS,
        |generator, size, number| {
            let m = Mapping {
                processors: number as i64,
                ..random_mapping_of(generator, size)
            };
            random_side(generator, m)
        },
    )
}

/// Of either dealing, with a random section; now and then without elements.
fn random_side(generator: &mut Generator, m: Mapping) -> Side {
    let triplet = random_section(generator, &m);
    let (dealing, sizes) = match generator.below(2) {
        0 => (0, Sizes::of(&[-1])),
        _ => (1, with_random_sizes(generator, m).sizes),
    };
    let side = Side {
        m,
        dealing,
        sizes,
        triplet,
    };
    if generator.below(30) > 0 {
        return side;
    }
    Side {
        m: Mapping { size: 0, ..m },
        triplet: Triplet::of([1, 0, 1]),
        ..side
    }
}

/// Any, or the whole array, either way.
fn random_section(generator: &mut Generator, m: &Mapping) -> Triplet {
    let (first, last) = (m.array_lower, m.array_lower + m.size - 1);
    match generator.below(4) {
        0 => Triplet::of([first, last, 1]),
        1 => Triplet::of([last, first, -1]),
        _ => random_triplet(generator, m),
    }
}

/// The steps, some elements, and the first place and whole list of a random processor.
fn compare_enumerated(chains: &mut Chains, grid: &Grid) -> Outcome {
    let enumerated = Enumerated::of(grid);
    chains.comparison.grid_steps(grid, enumerated.steps())?;
    let number = enumerated.elements.len() as u64;
    for _ in 0..u64::from(ELEMENTS).min(number) {
        let element = chains.generator.below(number) as usize;
        compare_element(chains.comparison, grid, &enumerated, element)?;
    }
    let processor = chains.generator.below(enumerated.processors());
    let list = &enumerated.lists()[processor as usize];
    let first = Placed::at(list.place_after(0));
    let comparison = &mut chains.comparison;
    comparison.grid_first_place(grid, processor as i64, first)?;
    chains.run(list, fill(grid, processor))
}

fn compare_element(
    comparison: &mut Comparison,
    grid: &Grid,
    enumerated: &Enumerated,
    element: usize,
) -> Outcome {
    let (indices, place) = (enumerated.elements[element], enumerated.place(element));
    comparison.grid_ownership(grid, indices, Owned::at(place))?;
    let (processor, address) = (place.processor as i64, place.address as i64);
    comparison.grid_going_back(grid, processor, address, GridFound::element(indices))
}

/// The steps; some elements and processors; a chain for a random processor, which may have no
/// element; and one for the owner of a random position, from there on.
fn compare_at_full_range(chains: &mut Chains, grid: &Grid) -> Outcome {
    compare_some_elements(chains, grid)?;
    let steps = answers::section_steps(grid);
    chains.comparison.grid_steps(grid, steps)?;
    let processor = chains.generator.below(processors(grid) as u64);
    let first = answers::first_place(grid, processor as i64);
    chains
        .comparison
        .grid_first_place(grid, processor as i64, first)?;
    let list = answers::list(grid, processor as i64, first.place as u64, MOST_ENTRIES);
    chains.run(&list, fill(grid, processor))?;
    if section_count(grid) == 0 {
        return Ok(());
    }
    let place = chains.generator.below(section_count(grid));
    let processor = owner_at(grid, place);
    let list = answers::list(grid, processor as i64, place, MOST_ENTRIES);
    chains.run(&list, fill(grid, processor))
}

/// A random element, and indices, addresses and processors at and past their ends.
fn compare_some_elements(chains: &mut Chains, grid: &Grid) -> Outcome {
    let generator = &mut chains.generator;
    let mut indices = [i64::MIN; DIMENSIONS];
    for (index, side) in indices.iter_mut().zip(grid.used()) {
        let most = side.m.size.max(1) as u64;
        *index = side.m.array_lower + generator.up_to(most) as i64 - 1;
    }
    let past = chains.generator.below(grid.rank as u64) as usize;
    let mut outside = indices;
    outside[past] = grid.dimensions[past].m.array_lower + grid.dimensions[past].m.size;
    let owned = answers::ownership(grid, indices);
    let (processor, address) = (owned.processor.into(), owned.address.into());
    let comparison = &mut chains.comparison;
    comparison.grid_elements(grid, indices, processor, address)?;
    comparison.grid_elements(grid, outside, processor, address + 1)?;
    comparison.grid_elements(grid, outside, processors(grid), address)
}

/// A fill whose place and quota the chain decides.
fn fill(grid: &Grid, processor: u64) -> Fill {
    Fill {
        grid: grid.clone(),
        processor: processor as i64,
        place: 0,
        quota: 0,
    }
}
