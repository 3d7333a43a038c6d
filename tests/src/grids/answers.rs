//! The answers that the library is to give for any grid at all: by the questions, and put
//! together from those of its dimensions.

use crate::grids::library::{Fill, Grid, GridFound, GridSteps, DIMENSIONS};
use crate::grids::one_dimension::{self, fill_one};
use crate::grids::questions::{self, of_grid, of_indices, of_list, of_processor, section_count};
use crate::library::Owned;
use crate::processor_list::{Entry, List};
use crate::questions::of_address;
use crate::section_comparison::Filling;
use crate::section_library::{Placed, Steps};

impl GridFound {
    /// The element of these indices. Those past the rank are 0.
    pub fn element(indices: [i64; DIMENSIONS]) -> GridFound {
        GridFound {
            refusal: 0,
            indices: indices.map(|index| index as i32),
        }
    }

    pub fn refused(refusal: i32) -> GridFound {
        GridFound {
            refusal,
            indices: [0; DIMENSIONS],
        }
    }
}

impl GridSteps {
    pub fn refused(refusal: i32) -> GridSteps {
        GridSteps {
            refusal: i64::from(refusal),
            count: 0,
            dimensions: [Steps::refused(0); DIMENSIONS],
        }
    }
}

pub fn ownership(grid: &Grid, indices: [i64; DIMENSIONS]) -> Owned {
    let refusal = match of_grid(grid) {
        0 => of_indices(grid, indices),
        refusal => refusal,
    };
    if refusal != 0 {
        return Owned::refused(refusal);
    }
    let (mut owner, mut lower) = (0, 1);
    let (mut address, mut counted) = (0, 1);
    for (side, index) in grid.used().iter().zip(indices) {
        let owned = one_dimension::ownership(side, index);
        let held = one_dimension::local_count(side, owned.processor.into());
        owner += lower * owned.processor;
        lower *= side.m.processors as i32;
        address += counted * owned.address;
        counted *= held.elements;
    }
    Owned {
        refusal,
        processor: owner,
        address,
    }
}

pub fn going_back(grid: &Grid, processor: i64, address: i64) -> GridFound {
    let refusal = match of_grid(grid) {
        0 => of_processor(grid, processor),
        refusal => refusal,
    };
    if refusal != 0 {
        return GridFound::refused(refusal);
    }
    let held = counts(grid, processor);
    if of_address(held.iter().product::<i64>() as u64, address) != 0 {
        return GridFound::refused(9);
    }
    let coordinates = coordinates(grid, processor);
    let mut rest = address;
    let mut indices = [0; DIMENSIONS];
    for (place, side) in grid.used().iter().enumerate() {
        let found = one_dimension::going_back(side, coordinates[place], rest % held[place]);
        indices[place] = i64::from(found.index);
        rest /= held[place];
    }
    GridFound::element(indices)
}

/// The coordinates of a grid processor; 0 past the rank.
fn coordinates(grid: &Grid, processor: i64) -> [i64; DIMENSIONS] {
    let mut rest = processor;
    let mut coordinates = [0; DIMENSIONS];
    for (coordinate, side) in coordinates.iter_mut().zip(grid.used()) {
        *coordinate = rest % side.m.processors;
        rest /= side.m.processors;
    }
    coordinates
}

/// How many elements the processor's coordinates hold in each dimension; 1 past the rank.
fn counts(grid: &Grid, processor: i64) -> [i64; DIMENSIONS] {
    let coordinates = coordinates(grid, processor);
    let mut counts = [1; DIMENSIONS];
    for (place, side) in grid.used().iter().enumerate() {
        let counted = one_dimension::local_count(side, coordinates[place]);
        counts[place] = i64::from(counted.elements);
    }
    counts
}

pub fn section_steps(grid: &Grid) -> GridSteps {
    match questions::of_section(grid) {
        0 => accepted_steps(grid),
        refusal => GridSteps::refused(refusal),
    }
}

/// A dimension past the rank has count 1 and no steps.
fn accepted_steps(grid: &Grid) -> GridSteps {
    let mut dimensions = [Steps::refused(0); DIMENSIONS];
    for (place, steps) in dimensions.iter_mut().enumerate() {
        match grid.used().get(place) {
            Some(side) => *steps = one_dimension::section_steps(side),
            None => steps.count = 1,
        }
    }
    GridSteps {
        refusal: 0,
        count: section_count(grid) as i64,
        dimensions,
    }
}

pub fn first_place(grid: &Grid, processor: i64) -> Placed {
    match of_list(grid, processor) {
        0 => Placed::at(first_of(grid, processor)),
        refusal => Placed::refused(refusal),
    }
}

/// The processor's first place in the section, or the count.
fn first_of(grid: &Grid, processor: i64) -> u64 {
    let firsts = first_places(grid, processor);
    let counts = section_counts(grid);
    if firsts
        .iter()
        .zip(&counts)
        .any(|(first, count)| first == count)
    {
        return section_count(grid);
    }
    number(firsts, counts)
}

fn first_places(grid: &Grid, processor: i64) -> [u64; DIMENSIONS] {
    let coordinates = coordinates(grid, processor);
    let mut firsts = [0; DIMENSIONS];
    for (place, side) in grid.used().iter().enumerate() {
        firsts[place] = one_dimension::first_place(side, coordinates[place]).place as u64;
    }
    firsts
}

fn section_counts(grid: &Grid) -> [u64; DIMENSIONS] {
    accepted_steps(grid)
        .dimensions
        .map(|steps| steps.count as u64)
}

/// First dimension fastest.
fn number(at: [u64; DIMENSIONS], counts: [u64; DIMENSIONS]) -> u64 {
    at[0] + counts[0] * (at[1] + counts[1] * at[2])
}

/// What a fill does with a list of so many entries.
pub fn fill(fill: &Fill, room: usize) -> Filling {
    match questions::of_fill(fill) {
        0 => {
            let list = list(&fill.grid, fill.processor, fill.place as u64, room);
            let entries = list.taken_next(0, fill.quota as u64, room);
            Filling::of(entries, list.place_after(entries.len()))
        }
        refusal => Filling::refused(refusal),
    }
}

/// At most so many entries of the processor's list, from a place on.
pub fn list(grid: &Grid, processor: i64, start: u64, most: usize) -> List {
    let walk = Walk::of(grid, processor);
    let count = section_count(grid);
    let mut entries = Vec::new();
    let mut end = start;
    while end != count && entries.len() < most {
        let (entry, next) = walk.entry(end);
        entries.push(entry);
        end = next;
    }
    List {
        entries,
        end,
        is_whole: end == count,
    }
}

/// A processor's way through a section.
struct Walk<'a> {
    grid: &'a Grid,
    coordinates: [i64; DIMENSIONS],
    held: [i64; DIMENSIONS],
    firsts: [u64; DIMENSIONS],
    counts: [u64; DIMENSIONS],
}

impl Walk<'_> {
    fn of(grid: &Grid, processor: i64) -> Walk<'_> {
        Walk {
            grid,
            coordinates: coordinates(grid, processor),
            held: counts(grid, processor),
            firsts: first_places(grid, processor),
            counts: section_counts(grid),
        }
    }

    /// The entry at a place, and the place after it.
    fn entry(&self, place: u64) -> (Entry, u64) {
        let [first, second, _] = self.counts;
        let at = [
            place % first,
            place / first % second,
            place / first / second,
        ];
        let filled = self.fills(at);
        let addresses = filled.each_ref().map(|(address, _, _)| *address);
        let entry = Entry {
            position: place,
            address: number(addresses, self.held.map(|held| held as u64)) as u32,
            tries: filled[0].1,
        };
        (entry, self.next(at, filled.map(|(_, _, next)| next)))
    }

    /// In each dimension the address, the tries and the next place.
    fn fills(&self, at: [u64; DIMENSIONS]) -> [(u64, u64, u64); DIMENSIONS] {
        std::array::from_fn(|place| match self.grid.used().get(place) {
            Some(side) => {
                let filling = fill_one(side, self.coordinates[place], at[place] as i64);
                let answer = filling.answer;
                let address = u64::from(filling.addresses[0]);
                (address, answer.tries as u64, answer.place as u64)
            }
            None => (0, 1, 1),
        })
    }

    /// The next place inside the row; or the first in the next row that has one; or the count.
    fn next(&self, at: [u64; DIMENSIONS], next: [u64; DIMENSIONS]) -> u64 {
        let mut after = at;
        for place in 0..DIMENSIONS {
            if next[place] < self.counts[place] {
                after[place] = next[place];
                return number(after, self.counts);
            }
            after[place] = self.firsts[place];
        }
        self.counts.iter().product()
    }
}
