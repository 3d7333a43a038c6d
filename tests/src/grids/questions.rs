//! The questions that a call asks of a grid, in wide integers that no number overflows. Each
//! function gives the number of the first question answered no, or 0.

use crate::gen_block;
use crate::gen_block::questions::of_side;
use crate::gen_block::runs::Runs;
use crate::gen_block::transfer_library::Side;
use crate::grids::library::{Fill, Grid, DIMENSIONS};
use crate::questions::{self, first_no, of_index, of_quota};
use crate::section_enumeration::{count, element};
use crate::transfer_enumeration::Places;

const MOST_PROCESSORS: i128 = 1_024;
const MOST_ELEMENTS: i128 = 2_147_483_647;

/// 17; 1 to 5, with 15 and 16, of each dimension; 17 again.
pub fn of_grid(grid: &Grid) -> i32 {
    of_dimensions(grid, of_mapping)
}

/// The same with 6 and 7 among them.
pub fn of_section(grid: &Grid) -> i32 {
    of_dimensions(grid, of_side)
}

fn of_dimensions(grid: &Grid, of_dimension: impl Fn(&Side) -> i32) -> i32 {
    if !(1..=DIMENSIONS as i64).contains(&grid.rank) {
        return 17;
    }
    let refusals = grid.used().iter().map(of_dimension);
    match first_refusal(refusals) {
        0 => of_products(grid.used()),
        refusal => refusal,
    }
}

/// Questions 1 to 5, with 15 and 16, of one dimension.
fn of_mapping(side: &Side) -> i32 {
    if side.has_sizes() {
        gen_block::questions::of_mapping(&side.gen_block())
    } else {
        questions::of_mapping(&side.m)
    }
}

/// 17 again, of dimensions that pass their questions.
fn of_products(dimensions: &[Side]) -> i32 {
    let product = |number: fn(&Side) -> i64| -> i128 {
        let numbers = dimensions.iter().map(number);
        numbers.map(i128::from).product()
    };
    first_no(&[
        (17, product(|side| side.m.processors) <= MOST_PROCESSORS),
        (17, product(|side| side.m.size) <= MOST_ELEMENTS),
    ])
}

/// How many processors an accepted grid has.
pub fn processors(grid: &Grid) -> i64 {
    grid.used().iter().map(|side| side.m.processors).product()
}

/// Question 8, of a grid that passes those before.
pub fn of_processor(grid: &Grid, processor: i64) -> i32 {
    first_no(&[(8, (0..processors(grid)).contains(&processor))])
}

/// Question 9, of a grid that passes those before.
pub fn of_indices(grid: &Grid, indices: [i64; DIMENSIONS]) -> i32 {
    let dimensions = grid.used().iter().zip(indices);
    first_refusal(dimensions.map(|(side, index)| of_index(&side.m, index)))
}

/// Those of the section and 8.
pub fn of_list(grid: &Grid, processor: i64) -> i32 {
    match of_section(grid) {
        0 => of_processor(grid, processor),
        refusal => refusal,
    }
}

/// Those of the list, 10 and 11.
pub fn of_fill(fill: &Fill) -> i32 {
    match of_list(&fill.grid, fill.processor) {
        0 => first_no(&[(10, is_place(fill)), (11, of_quota(fill.quota) == 0)]),
        refusal => refusal,
    }
}

/// Whether the place is the count, or a position whose element the processor owns.
fn is_place(fill: &Fill) -> bool {
    let count = section_count(&fill.grid);
    let owner = |place| owner_at(&fill.grid, place) as i64;
    let is_owned = |place: i64| owner(place as u64) == fill.processor;
    fill.place == count as i64 || (0..count as i64).contains(&fill.place) && is_owned(fill.place)
}

/// How many elements an accepted section has.
pub fn section_count(grid: &Grid) -> u64 {
    let dimensions = grid.used().iter();
    dimensions.map(|side| count(&side.triplet)).product()
}

/// The grid processor that owns the element at a position of an accepted section.
pub fn owner_at(grid: &Grid, position: u64) -> u64 {
    let (mut rest, mut owner, mut lower) = (position, 0, 1);
    for side in grid.used() {
        let count = count(&side.triplet);
        owner += lower * owner_in(side, element(&side.triplet, rest % count));
        rest /= count;
        lower *= side.m.processors as u64;
    }
    owner
}

fn owner_in(side: &Side, index: i64) -> u64 {
    if side.has_sizes() {
        Runs::of(&side.gen_block()).owner(index)
    } else {
        side.m.array().owner(index)
    }
}

pub fn first_refusal(refusals: impl IntoIterator<Item = i32>) -> i32 {
    let mut refusals = refusals.into_iter();
    refusals.find(|&refusal| refusal != 0).unwrap_or(0)
}
