//! Owners, addresses and places on templates of any size. A processor's cells are one
//! run, and so are its elements and its positions in a section: their ends are searched.

use std::ops::Range;

use crate::enumeration::{Array, Place};
use crate::gen_block::library::GenBlock;
use crate::processor_list::{Entry, List};
use crate::section_enumeration::{count, element};
use crate::section_library::Triplet;
use crate::transfer_enumeration::Places;

/// An accepted mapping, and where each processor's run of cells ends.
pub struct Runs {
    array: Array,
    ends: Vec<u64>,
}

impl Runs {
    pub fn of(g: &GenBlock) -> Runs {
        let mut end = 0;
        let ends = g.sizes.numbers().map(|size| {
            end += size as u64;
            end
        });
        Runs {
            array: g.m.array(),
            ends: ends.collect(),
        }
    }

    fn cells(&self, processor: u64) -> Range<u64> {
        let start = match processor {
            0 => 0,
            above => self.ends[above as usize - 1],
        };
        start..self.ends[processor as usize]
    }

    /// The elements that a processor holds.
    pub fn held(&self, processor: u64) -> Range<i64> {
        let Range { start, end } = self.cells(processor);
        let first_from = |cell| {
            let is_reached = |index| self.array.cell(index) >= cell;
            first_where(self.array.indices(), is_reached)
        };
        first_from(start)..first_from(end)
    }

    /// The lowest position, from `start` on, whose element the processor owns; or the
    /// count.
    pub fn first_place(&self, triplet: &Triplet, processor: u64, start: u64) -> u64 {
        let cells = self.cells(processor);
        let cell = |position| self.array.cell(element(triplet, position as u64));
        let is_reached = |position| match triplet.step > 0 {
            true => cell(position) >= cells.start,
            false => cell(position) < cells.end,
        };
        let count = count(triplet) as i64;
        let place = first_where(start as i64..count, is_reached);
        if place < count && cells.contains(&cell(place)) {
            place as u64
        } else {
            count as u64
        }
    }

    /// At most so many entries of the processor's list, from a place on.
    pub fn list(&self, triplet: &Triplet, processor: u64, start: u64, most: usize) -> List {
        let count = count(triplet);
        let mut entries = Vec::new();
        let mut end = start;
        while end != count && entries.len() < most {
            entries.push(Entry {
                position: end,
                address: self.place(element(triplet, end)).address as u32,
                tries: 1,
            });
            end = self.first_place(triplet, processor, end + 1);
        }
        List {
            entries,
            end,
            is_whole: end == count,
        }
    }
}

impl Places for Runs {
    fn owner(&self, index: i64) -> u64 {
        let cell = self.array.cell(index);
        let owner = self.ends.iter().position(|&end| cell < end);
        owner.expect("each cell has an owner") as u64
    }

    fn place(&self, index: i64) -> Place {
        let processor = self.owner(index);
        let address = (index - self.held(processor).start) as u64;
        Place { processor, address }
    }
}

/// The first number for which something holds that holds from there on, or the end.
fn first_where(numbers: Range<i64>, holds: impl Fn(i64) -> bool) -> i64 {
    let Range {
        start: mut low,
        end: mut high,
    } = numbers;
    while low < high {
        let middle = low + (high - low) / 2;
        if holds(middle) {
            high = middle;
        } else {
            low = middle + 1;
        }
    }
    low
}
