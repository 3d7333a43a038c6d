//! A law, the library held to itself: a grid of rank 1 answers as the calls of rank 1 do, in
//! every field, whatever stands in the dimensions past it.

use crate::calls::{CallFill, Calls};
use crate::comparison::{Comparison, Difference, Outcome};
use crate::fill_chains::Chained;
use crate::gen_block;
use crate::gen_block::library::GenBlock;
use crate::gen_block::random_mappings::with_random_sizes;
use crate::gen_block::sizes::Sizes;
use crate::gen_block::transfer_library::Side;
use crate::generator::Generator;
use crate::grids::library::{Fill, Grid, GridFound, GridSteps};
use crate::library::Mapping;
use crate::random_mappings::random_mapping;
use crate::random_sections::random_triplet;
use crate::section_library::{self, Steps, Triplet};
use crate::special_numbers::{combine, MAPPINGS};

const LARGEST: i64 = 2_147_483_647;
const SECTIONS: u32 = 40_000;
const ROOM: usize = 6;

/// A rank-1 call of either dealing, and the same on a grid.
struct Pair<M, F> {
    mapping: M,
    fill: F,
    grid: Fill,
    index: i64,
    address: i64,
}

/// Random sections at full range of both dealings, lawful and with some faults.
pub fn compare_sections(comparison: &mut Comparison) -> Result<String, Difference> {
    let mut generator = Generator::new(31);
    for _ in 0..SECTIONS {
        let m = random_mapping(&mut generator);
        let triplet = random_triplet(&mut generator, &m);
        let by_sizes = with_random_sizes(&mut generator, m);
        compare_in_blocks(comparison, &mut generator, &m, triplet)?;
        compare_by_sizes(comparison, &mut generator, &by_sizes, triplet)?;
    }
    Ok(format!("{SECTIONS} random sections and grids of rank 1"))
}

fn compare_in_blocks(
    comparison: &mut Comparison,
    generator: &mut Generator,
    m: &Mapping,
    triplet: Triplet,
) -> Outcome {
    let lawful = section_library::Fill {
        m: *m,
        triplet,
        processor: generator.below(m.processors as u64) as i64,
        place: 0,
        quota: generator.within(3, 9) as i64,
    };
    let place = m.first_place(&triplet, lawful.processor).place;
    let lawful = lawful.with(place.into(), lawful.quota);
    for fill in [lawful, lawful.spoil(generator)] {
        let side = Side {
            m: fill.m,
            dealing: 0,
            sizes: Sizes::of(&[-1]),
            triplet: fill.triplet,
        };
        let numbers = [fill.processor, fill.place, fill.quota];
        let pair = pair(generator, fill.m, fill, side, numbers);
        compare_pair(comparison, &pair)?;
    }
    Ok(())
}

fn compare_by_sizes(
    comparison: &mut Comparison,
    generator: &mut Generator,
    g: &GenBlock,
    triplet: Triplet,
) -> Outcome {
    let lawful = gen_block::section_library::Fill {
        g: g.clone(),
        triplet,
        processor: generator.below(g.m.processors as u64) as i64,
        place: 0,
        quota: generator.within(3, 9) as i64,
    };
    let place = g.first_place(&triplet, lawful.processor).place;
    let lawful = lawful.with(place.into(), lawful.quota);
    for fill in [lawful.clone(), lawful.spoil(generator)] {
        let side = Side {
            m: fill.g.m,
            dealing: -1,
            sizes: fill.g.sizes.clone(),
            triplet: fill.triplet,
        };
        let numbers = [fill.processor, fill.place, fill.quota];
        let pair = pair(generator, fill.g.clone(), fill, side, numbers);
        compare_pair(comparison, &pair)?;
    }
    Ok(())
}

/// With an index and an address of the array, or past their ends.
fn pair<M: Calls, F>(
    generator: &mut Generator,
    mapping: M,
    fill: F,
    side: Side,
    [processor, place, quota]: [i64; 3],
) -> Pair<M, F> {
    let size = mapping.numbers().size.clamp(1, LARGEST) as u64;
    let number = generator.up_to(size) as i64;
    let held = i64::from(mapping.local_count(processor).elements);
    Pair {
        index: mapping.numbers().array_lower.wrapping_add(number),
        address: held - generator.below(3) as i64,
        mapping,
        fill,
        grid: Fill {
            grid: Grid::of(&[side]),
            processor,
            place,
            quota,
        },
    }
}

fn compare_pair(comparison: &mut Comparison, pair: &Pair<impl Calls, impl CallFill>) -> Outcome {
    let Pair { mapping, grid, .. } = pair;
    let Fill {
        grid, processor, ..
    } = grid;
    comparison.grid_ownership(grid, [pair.index, 0, -1], mapping.ownership(pair.index))?;
    let found = mapping.going_back(*processor, pair.address);
    let indices = [found.index, 0, 0];
    let expected = GridFound {
        refusal: found.refusal,
        indices,
    };
    comparison.grid_going_back(grid, *processor, pair.address, expected)?;
    let triplet = &grid.dimensions[0].triplet;
    comparison.grid_steps(grid, of_one(mapping.section_steps(triplet)))?;
    let first = mapping.first_place(triplet, *processor);
    comparison.grid_first_place(grid, *processor, first)?;
    let [expected, found] = [filled(&pair.fill), filled(&pair.grid)];
    comparison.same(found, expected, || format!("{:?}", pair.grid))
}

/// The count and the steps of one dimension; the others have one element.
fn of_one(steps: Steps) -> GridSteps {
    let refused = steps.refusal != 0;
    let past_the_rank = Steps {
        count: i64::from(!refused),
        ..Steps::refused(0)
    };
    let first = Steps {
        refusal: 0,
        ..steps
    };
    GridSteps {
        refusal: steps.refusal,
        count: steps.count,
        dimensions: [first, past_the_rank, past_the_rank],
    }
}

/// The answer, and the list afterwards, with 3 bytes left over.
fn filled(fill: &impl CallFill) -> (section_library::Filled, [u8; 4 * ROOM + 3]) {
    let mut list = [0x5a; 4 * ROOM + 3];
    (fill.fill(&mut list), list)
}

/// Numbers at and past every limit, in all combinations.
pub fn compare_combinations(comparison: &mut Comparison) -> Result<String, Difference> {
    combine(comparison, MAPPINGS, |comparison, numbers| {
        let mapping = Mapping::of(numbers);
        let triplet = Triplet::of([0, 18, 7]);
        let fill = section_library::Fill {
            m: mapping,
            triplet,
            processor: 0,
            place: 0,
            quota: 3,
        };
        let side = Side {
            m: mapping,
            dealing: 0,
            sizes: Sizes::of(&[-1]),
            triplet,
        };
        let grid = Fill {
            grid: Grid::of(&[side]),
            processor: 0,
            place: 0,
            quota: 3,
        };
        let pair = Pair {
            mapping,
            fill,
            grid,
            index: 18,
            address: 6,
        };
        compare_pair(comparison, &pair)
    })?;
    Ok("grids of rank 1 at and past their limits, in all combinations".to_string())
}
