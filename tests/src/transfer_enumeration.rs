//! The entries of a pair, position by position, straight from their definition.

use crate::counting::{Counting, Way};
use crate::enumeration::Place;
use crate::section_enumeration::{count, element};
use crate::section_library::Triplet;
use crate::transfer_library::Side;

/// A position, the element's address on the sender, and that on the receiver.
pub type Entry = [i32; 3];

/// Where the elements of an array are.
pub trait Places {
    fn owner(&self, index: i64) -> u64;
    fn place(&self, index: i64) -> Place;
}

impl Places for Counting {
    fn owner(&self, index: i64) -> u64 {
        self.array.owner(index)
    }

    fn place(&self, index: i64) -> Place {
        Counting::place(self, index)
    }
}

/// A side of an assignment that questions 1 to 7 accept.
pub struct Half {
    places: Box<dyn Places>,
    processors: u64,
    triplet: Triplet,
}

impl Half {
    /// Addresses are counted element by element, as they are defined.
    pub fn of_small(side: &Side) -> Half {
        let counting = Counting::new(side.m.array(), Way::Elements);
        Half::new(counting, side.m.processors, side.triplet)
    }

    pub fn of_any_size(side: &Side) -> Half {
        let counting = Counting::cheapest(side.m.array());
        Half::new(counting, side.m.processors, side.triplet)
    }

    pub fn new(places: impl Places + 'static, processors: i64, triplet: Triplet) -> Half {
        Half {
            places: Box::new(places),
            processors: processors as u64,
            triplet,
        }
    }

    pub fn count(&self) -> u64 {
        count(&self.triplet)
    }

    pub fn processors(&self) -> u64 {
        self.processors
    }

    pub fn owner(&self, position: u64) -> u64 {
        self.places.owner(element(&self.triplet, position))
    }

    fn address(&self, position: u64) -> u64 {
        let index = element(&self.triplet, position);
        self.places.place(index).address
    }
}

/// All positions that the sender owns on the right and the receiver on the left, rising.
pub fn pair(left: &Half, right: &Half, sender: u64, receiver: u64) -> Vec<Entry> {
    (0..left.count())
        .filter(|&position| right.owner(position) == sender && left.owner(position) == receiver)
        .map(|position| [position, right.address(position), left.address(position)])
        .map(|entry| entry.map(|number| number as i32))
        .collect()
}
