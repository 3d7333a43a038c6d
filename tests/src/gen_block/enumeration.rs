//! Owners, addresses, steps and lists of a template that is dealt by a list of sizes,
//! straight from their definitions: cell by cell, and position by position.

use std::iter;

use crate::checkpoint_enumeration::Layout;
use crate::enumeration::{enumerate_owned, Array, Enumeration, Place};
use crate::gen_block::library::GenBlock;
use crate::processor_list::{Entry, List};
use crate::section_enumeration::{count, element};
use crate::section_library::{Steps, Triplet};
use crate::transfer_enumeration::Places;

/// An accepted mapping, its template dealt and its elements addressed.
pub struct Dealt {
    array: Array,
    /// The owner of each cell.
    owners: Vec<u64>,
    pub enumeration: Enumeration,
}

impl Dealt {
    /// As many cells as the first size says go to processor 0, and so on. Cells past T
    /// belong to nobody.
    pub fn of(g: &GenBlock) -> Dealt {
        let owners: Vec<u64> = (0..)
            .zip(g.sizes.numbers())
            .flat_map(|(processor, size)| iter::repeat_n(processor, size as usize))
            .take(g.m.cells as usize)
            .collect();
        let array = g.m.array();
        let owner = |index| owners[array.cell(index) as usize];
        let enumeration = enumerate_owned(array.indices(), array.processors, owner);
        Dealt {
            array,
            owners,
            enumeration,
        }
    }

    /// The section's elements that the processor owns, in rising position. Going on
    /// from each costs 1 try.
    pub fn list(&self, triplet: &Triplet, processor: u64) -> List {
        let end = count(triplet);
        let entries = (0..end)
            .map(|position| (position, self.place(element(triplet, position))))
            .filter(|(_, place)| place.processor == processor)
            .map(|(position, place)| Entry {
                position,
                address: place.address as u32,
                tries: 1,
            });
        List {
            entries: entries.collect(),
            end,
            is_whole: true,
        }
    }

    pub fn layout(&self, g: &GenBlock) -> Layout<GenBlock> {
        let (indices, processors) = (self.array.indices(), self.array.processors);
        Layout::by_places(g, indices, processors, &self.enumeration)
    }
}

impl Places for Dealt {
    fn owner(&self, index: i64) -> u64 {
        self.owners[self.array.cell(index) as usize]
    }

    fn place(&self, index: i64) -> Place {
        self.enumeration.place(index)
    }
}

/// From each position to the next it is as far as from the first to the second: that is
/// the one step, within a course, and the column moves as far.
pub fn steps(g: &GenBlock, triplet: &Triplet) -> Steps {
    let mut steps = Steps {
        count: count(triplet) as i64,
        ..Steps::refused(0)
    };
    if steps.count > 1 {
        let cells = [0, 1].map(|position| g.m.array().cell(element(triplet, position)));
        steps.steps = 1;
        steps.cells = cells[0].abs_diff(cells[1]) as i64;
        steps.column = steps.cells;
    }
    steps
}
