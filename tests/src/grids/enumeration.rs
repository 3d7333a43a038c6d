//! Owners, addresses and lists of a grid, straight from their definitions: element by element
//! and position by position, the first dimension fastest.

use crate::enumeration::{enumerate_owned, Enumeration, Place};
use crate::gen_block::enumeration::{self, Dealt};
use crate::gen_block::transfer_library::Side;
use crate::grids::library::{Grid, GridSteps, DIMENSIONS};
use crate::processor_list::{Entry, List};
use crate::section_enumeration::{element, Section};
use crate::section_library::Steps;
use crate::transfer_enumeration::Places;

/// One dimension, enumerated.
struct Line {
    lower: i64,
    processors: u64,
    /// The owner of each element.
    owners: Vec<u64>,
    /// For each position of the section its element, counted from 0, and the tries of going
    /// on from it.
    positions: Vec<(usize, u64)>,
    steps: Steps,
}

/// An accepted section of a grid, all elements of the array and all of its own.
pub struct Enumerated {
    lines: [Line; DIMENSIONS],
    /// The elements in storage order, by their declared indices, and by where they are.
    pub elements: Vec<[i64; DIMENSIONS]>,
    places: Enumeration,
}

impl Line {
    fn of(side: &Side) -> Line {
        if side.has_sizes() {
            return Line::by_sizes(side);
        }
        let section = Section::new(side.m.array(), side.triplet);
        let owner = |index| section.array.owner(index);
        let tries = |position| section.entry(position, 0).tries;
        Line::new(side, owner, tries, Steps::of(&section))
    }

    fn by_sizes(side: &Side) -> Line {
        let g = side.gen_block();
        let dealt = Dealt::of(&g);
        let steps = enumeration::steps(&g, &side.triplet);
        Line::new(side, |index| dealt.owner(index), |_| 1, steps)
    }

    fn new(
        side: &Side,
        owner: impl Fn(i64) -> u64,
        tries: impl Fn(u64) -> u64,
        steps: Steps,
    ) -> Line {
        let indices = side.m.array().indices();
        let lower = indices.start;
        let at = |position| (element(&side.triplet, position) - lower) as usize;
        Line {
            lower,
            processors: side.m.processors as u64,
            owners: indices.map(owner).collect(),
            positions: (0..steps.count as u64)
                .map(|position| (at(position), tries(position)))
                .collect(),
            steps,
        }
    }

    /// A dimension past the rank has one element, of index 0, and one processor.
    fn single() -> Line {
        Line {
            lower: 0,
            processors: 1,
            owners: vec![0],
            positions: vec![(0, 1)],
            steps: Steps {
                count: 1,
                ..Steps::refused(0)
            },
        }
    }
}

impl Enumerated {
    pub fn of(grid: &Grid) -> Enumerated {
        let used = grid.used();
        let lines = std::array::from_fn(|place| match used.get(place) {
            Some(side) => Line::of(side),
            None => Line::single(),
        });
        let sizes = lines.each_ref().map(|line: &Line| line.owners.len());
        let numbers: Vec<[usize; DIMENSIONS]> = first_fastest(sizes).collect();
        let owner = |number: i64| owner(&lines, numbers[number as usize]);
        let elements = 0..numbers.len() as i64;
        let places = enumerate_owned(elements, processors(&lines), owner);
        let index =
            |number: &[usize; DIMENSIONS], place: usize| lines[place].lower + number[place] as i64;
        let elements = numbers
            .iter()
            .map(|number| std::array::from_fn(|place| index(number, place)))
            .collect();
        Enumerated {
            lines,
            elements,
            places,
        }
    }

    pub fn processors(&self) -> u64 {
        processors(&self.lines)
    }

    /// Where the element is that has this number in storage order.
    pub fn place(&self, number: usize) -> Place {
        self.places.place(number as i64)
    }

    /// How many elements a processor holds.
    pub fn held(&self, processor: u64) -> u64 {
        let all = self.elements.len() as i64;
        self.places.held_below(all, processor).len() as u64
    }

    pub fn steps(&self) -> GridSteps {
        GridSteps {
            refusal: 0,
            count: self.count() as i64,
            dimensions: self.lines.each_ref().map(|line| line.steps),
        }
    }

    pub fn count(&self) -> usize {
        self.counts().iter().product()
    }

    fn counts(&self) -> [usize; DIMENSIONS] {
        self.lines.each_ref().map(|line| line.positions.len())
    }

    /// The section's elements that each processor owns, in rising position. The tries of going
    /// on from one are those in the first dimension.
    pub fn lists(&self) -> Vec<List> {
        let empty = || List {
            entries: Vec::new(),
            end: self.count() as u64,
            is_whole: true,
        };
        let mut lists: Vec<List> = (0..self.processors()).map(|_| empty()).collect();
        for (position, at) in (0..).zip(first_fastest(self.counts())) {
            let [first, second, third] =
                std::array::from_fn(|place| self.lines[place].positions[at[place]]);
            let place = self.place(self.number([first.0, second.0, third.0]));
            lists[place.processor as usize].entries.push(Entry {
                position,
                address: place.address as u32,
                tries: first.1,
            });
        }
        lists
    }

    /// In storage order.
    fn number(&self, [first, second, third]: [usize; DIMENSIONS]) -> usize {
        let [rows, columns, _] = self.lines.each_ref().map(|line| line.owners.len());
        first + rows * (second + columns * third)
    }
}

/// The processor whose coordinates own the element's indices.
fn owner(lines: &[Line; DIMENSIONS], element: [usize; DIMENSIONS]) -> u64 {
    let owner = |place: usize| lines[place].owners[element[place]];
    let processors = |place: usize| lines[place].processors;
    owner(0) + processors(0) * (owner(1) + processors(1) * owner(2))
}

fn processors(lines: &[Line; DIMENSIONS]) -> u64 {
    lines.iter().map(|line| line.processors).product()
}

/// All triples of numbers below these, the first running fastest.
fn first_fastest(
    [first, second, third]: [usize; DIMENSIONS],
) -> impl Iterator<Item = [usize; DIMENSIONS]> {
    let pairs = (0..third).flat_map(move |k| (0..second).map(move |j| (j, k)));
    pairs.flat_map(move |(j, k)| (0..first).map(move |i| [i, j, k]))
}
