//! Fills of a grid that must be refused: lawful ones in which the rank, numbers or sizes of
//! dimensions, products over them, the processor, the place or the quota are at fault.

use crate::faults::{outside, spoil_section, MOST_FAULTS};
use crate::fill_chains::Chained;
use crate::gen_block::faults::spoil_sizes;
use crate::gen_block::transfer_library::Side;
use crate::generator::Generator;
use crate::grids::library::{Fill, Grid};
use crate::grids::questions::{self, owner_at, section_count};
use crate::library::Mapping;
use crate::section_library::{self, Triplet};

const MOST_PROCESSORS: i64 = 1_024;
const LARGEST: i64 = 2_147_483_647;

impl Chained for Fill {
    const REFUSALS: &'static [usize] = &[1, 2, 3, 4, 5, 6, 7, 8, 10, 11, 15, 16, 17];

    fn with(&self, place: i64, quota: i64) -> Fill {
        Fill {
            place,
            quota,
            ..self.clone()
        }
    }

    /// Some exchanges are no fault, as of a first cell where there are no elements.
    fn spoil(&self, generator: &mut Generator) -> Fill {
        loop {
            let mut fill = self.clone();
            for _ in 0..generator.within(1, MOST_FAULTS) {
                spoil_one(generator, self, &mut fill);
            }
            if fill.refusal() != 0 {
                return fill;
            }
        }
    }

    fn refusal(&self) -> i32 {
        questions::of_fill(self)
    }
}

fn spoil_one(generator: &mut Generator, lawful: &Fill, fill: &mut Fill) {
    match generator.below(12) {
        0 => fill.grid.rank = outside(generator, 1, 3),
        1 => spoil_product(generator, &lawful.grid, &mut fill.grid),
        2 => fill.processor = outside(generator, 0, questions::processors(&lawful.grid) - 1),
        3 => spoil_place(generator, lawful, fill),
        4 => fill.quota = outside(generator, 3, 1_000_000),
        _ => {
            let place = generator.below(lawful.grid.rank as u64) as usize;
            let side = &lawful.grid.dimensions[place];
            spoil_dimension(generator, side, &mut fill.grid.dimensions[place]);
        }
    }
}

fn spoil_dimension(generator: &mut Generator, lawful: &Side, side: &mut Side) {
    if generator.below(6) > 0 {
        let numbers = numbers(lawful);
        let mut spoilt = numbers;
        spoil_section(generator, &numbers, &mut spoilt);
        (side.m, side.triplet) = (spoilt.m, spoilt.triplet);
    } else if lawful.has_sizes() {
        side.sizes = spoil_sizes(generator, &lawful.gen_block());
    } else {
        side.m.block = outside(generator, 1, 65_536);
    }
}

/// A fill of the dimension alone.
fn numbers(side: &Side) -> section_library::Fill {
    section_library::Fill {
        m: side.m,
        triplet: side.triplet,
        processor: 0,
        place: 0,
        quota: 0,
    }
}

/// A dimension, lawful for itself, that has just too many processors or elements for those
/// beside it.
fn spoil_product(generator: &mut Generator, lawful: &Grid, grid: &mut Grid) {
    let place = generator.below(lawful.rank as u64) as usize;
    let beside = |number: fn(&Side) -> i64| -> i64 {
        let dimensions = lawful.used().iter().enumerate();
        let others = dimensions.filter(|(other, _)| *other != place);
        others.map(|(_, side)| number(side)).product()
    };
    let side = &mut grid.dimensions[place];
    if generator.below(2) == 0 {
        side.m.processors = MOST_PROCESSORS / beside(|side| side.m.processors) + 1;
        return;
    }
    let size = LARGEST / beside(|side| side.m.size).max(1) + 1;
    side.m = Mapping {
        processors: side.m.processors,
        block: side.m.block,
        ..Mapping::of([LARGEST, 0, 0, 1, 0, size, 0, 0])
    };
    side.triplet = Triplet::of([0, 1, 1]);
}

/// A place outside the section, or of an element that another processor owns.
fn spoil_place(generator: &mut Generator, lawful: &Fill, fill: &mut Fill) {
    let count = section_count(&lawful.grid);
    let position = generator.below(count + 1);
    let is_owned = position == count || owner_at(&lawful.grid, position) == lawful.processor as u64;
    fill.place = if is_owned {
        outside(generator, 0, count as i64)
    } else {
        position as i64
    };
}
