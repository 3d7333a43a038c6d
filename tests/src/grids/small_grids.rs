//! Grids of rank 1, 2 and 3 of all small dimensions: each element there and back, sections
//! with their steps, first places and whole lists, and fills that end anywhere in them.

use crate::comparison::{Comparison, Difference, Outcome};
use crate::grids::answers;
use crate::grids::enumeration::Enumerated;
use crate::grids::library::{Fill, Grid, GridFound};
use crate::grids::small_dimensions::{grids, sections};
use crate::library::Owned;
use crate::processor_list::List;
use crate::section_comparison::Filling;
use crate::section_library::Placed;

const RANKS: [u32; 3] = [1, 2, 3];
/// Of so many sections of each rank one is compared, in turn; of so many of these one by
/// fills that end anywhere, and by the answers that are made from those of the dimensions.
const ONE_SECTION_IN: [usize; 3] = [1, 1, 11];
const ONE_LIST_IN: usize = 19;

const LARGEST_QUOTA: i64 = 1_000_000;
const MOST_ROOM: usize = 4;
const QUOTAS: [i64; 5] = [3, 4, 5, 8, LARGEST_QUOTA];

pub fn compare_elements(comparison: &mut Comparison) -> Result<String, Difference> {
    let mut number = 0;
    for grid in RANKS.into_iter().flat_map(grids) {
        let enumerated = Enumerated::of(&grid);
        compare_each_element(comparison, &grid, &enumerated)?;
        compare_past_the_ends(comparison, &grid, &enumerated)?;
        number += 1;
    }
    Ok(format!("elements of {number} small grids, there and back"))
}

fn compare_each_element(
    comparison: &mut Comparison,
    grid: &Grid,
    enumerated: &Enumerated,
) -> Outcome {
    for (number, &indices) in enumerated.elements.iter().enumerate() {
        let place = enumerated.place(number);
        comparison.grid_ownership(grid, indices, Owned::at(place))?;
        let (processor, address) = (place.processor as i64, place.address as i64);
        let found = GridFound::element(indices);
        comparison.grid_going_back(grid, processor, address, found)?;
    }
    Ok(())
}

/// Indices one past each end in each dimension, addresses and processors one past theirs.
fn compare_past_the_ends(
    comparison: &mut Comparison,
    grid: &Grid,
    enumerated: &Enumerated,
) -> Outcome {
    let firsts = grid.dimensions.each_ref().map(|side| side.m.array_lower);
    for (place, side) in grid.used().iter().enumerate() {
        for index in [firsts[place] - 1, firsts[place] + side.m.size] {
            let mut indices = firsts;
            indices[place] = index;
            comparison.grid_ownership(grid, indices, Owned::refused(9))?;
        }
    }
    let processors = enumerated.processors() as i64;
    for processor in [-1, processors] {
        comparison.grid_going_back(grid, processor, 0, GridFound::refused(8))?;
    }
    for processor in 0..processors {
        let held = enumerated.held(processor as u64) as i64;
        for address in [-1, held] {
            comparison.grid_going_back(grid, processor, address, GridFound::refused(9))?;
        }
    }
    Ok(())
}

/// Those that are compared.
fn small_sections() -> impl Iterator<Item = Grid> {
    RANKS
        .into_iter()
        .zip(ONE_SECTION_IN)
        .flat_map(|(rank, one_in)| {
            let all = grids(rank).flat_map(|grid| sections(&grid).collect::<Vec<Grid>>());
            all.step_by(one_in)
        })
}

pub fn compare_sections(comparison: &mut Comparison) -> Result<String, Difference> {
    let mut number = 0;
    for grid in small_sections() {
        let enumerated = Enumerated::of(&grid);
        comparison.grid_steps(&grid, enumerated.steps())?;
        for (processor, list) in (0..).zip(enumerated.lists()) {
            let first = Placed::at(list.place_after(0));
            comparison.grid_first_place(&grid, processor, first)?;
            compare_whole_list(comparison, &grid, processor, &list)?;
        }
        number += 1;
    }
    Ok(format!("{number} sections of small grids"))
}

fn compare_whole_list(
    comparison: &mut Comparison,
    grid: &Grid,
    processor: i64,
    list: &List,
) -> Outcome {
    let fill = fill(grid, processor, list.place_after(0), LARGEST_QUOTA);
    let expected = Filling::of(&list.entries, list.end);
    comparison.grid_fill(&fill, list.entries.len() + 1, &expected)
}

/// From every place, with no room and little, and with small quotas and the largest.
pub fn compare_fills(comparison: &mut Comparison) -> Result<String, Difference> {
    for grid in small_sections().step_by(ONE_LIST_IN) {
        for (processor, list) in (0..).zip(Enumerated::of(&grid).lists()) {
            for taken in 0..=list.entries.len() {
                compare_from(comparison, &grid, processor, &list, taken)?;
            }
        }
    }
    Ok("fills of small grids that end anywhere in a row".to_string())
}

fn compare_from(
    comparison: &mut Comparison,
    grid: &Grid,
    processor: i64,
    list: &List,
    taken: usize,
) -> Outcome {
    for room in 0..=MOST_ROOM {
        for quota in QUOTAS {
            let fill = fill(grid, processor, list.place_after(taken), quota);
            let entries = list.taken_next(taken, quota as u64, room);
            let next = list.place_after(taken + entries.len());
            comparison.grid_fill(&fill, room, &Filling::of(entries, next))?;
        }
    }
    Ok(())
}

/// Compares the answers that are made from those of the dimensions with the enumeration.
pub fn compare_answers(comparison: &mut Comparison) -> Result<String, Difference> {
    for grid in small_sections().step_by(ONE_LIST_IN) {
        let enumerated = Enumerated::of(&grid);
        compare_answers_on_elements(comparison, &grid, &enumerated)?;
        comparison.same(answers::section_steps(&grid), enumerated.steps(), || {
            format!("steps by dimensions, {grid:?}")
        })?;
        for (processor, list) in (0..).zip(enumerated.lists()) {
            let first = Placed::at(list.place_after(0));
            let found = answers::first_place(&grid, processor);
            comparison.same(found, first, || {
                format!("first place of {processor} by dimensions, {grid:?}")
            })?;
            let fill = fill(&grid, processor, list.place_after(0), LARGEST_QUOTA);
            let found = answers::fill(&fill, list.entries.len() + 1);
            let expected = Filling::of(&list.entries, list.end);
            comparison.same(found.answer, expected.answer, || {
                format!("{fill:?} by dimensions")
            })?;
            comparison.same(found.addresses, expected.addresses, || {
                format!("addresses of {fill:?} by dimensions")
            })?;
        }
    }
    Ok("answers put together from those of the dimensions, on small grids".to_string())
}

fn compare_answers_on_elements(
    comparison: &mut Comparison,
    grid: &Grid,
    enumerated: &Enumerated,
) -> Outcome {
    for (number, &indices) in enumerated.elements.iter().enumerate() {
        let place = enumerated.place(number);
        comparison.same(answers::ownership(grid, indices), Owned::at(place), || {
            format!("ownership of {indices:?} by dimensions, {grid:?}")
        })?;
        let found = answers::going_back(grid, place.processor as i64, place.address as i64);
        comparison.same(found, GridFound::element(indices), || {
            format!("going back to {indices:?} by dimensions, {grid:?}")
        })?;
    }
    Ok(())
}

fn fill(grid: &Grid, processor: i64, place: u64, quota: i64) -> Fill {
    Fill {
        grid: grid.clone(),
        processor,
        place: place as i64,
        quota,
    }
}
