//! The library's calls on a mapping, a fill or a transfer of either dealing.

use std::fmt::Debug;

use crate::checkpoint_library::{self, Copied, Direction};
use crate::library::{self, Counted, Found, Mapping, Owned};
use crate::questions;
use crate::section_library::{self, Fill, Filled, Placed, Steps, Triplet};
use crate::transfer_library::{self, Transfer, Transferred};

/// A mapping of either dealing.
pub trait Calls: Clone + Debug {
    /// Its numbers. The block may be none of them.
    fn numbers(&self) -> &Mapping;
    /// The first question that it answers no, or 0.
    fn refusal(&self) -> i32;
    fn ownership(&self, index: i64) -> Owned;
    fn going_back(&self, processor: i64, address: i64) -> Found;
    fn local_count(&self, processor: i64) -> Counted;
    fn section_steps(&self, triplet: &Triplet) -> Steps;
    fn first_place(&self, triplet: &Triplet, processor: i64) -> Placed;
    /// The list that is read may be changed, so that a wrong write into it shows.
    fn copy(&self, direction: Direction, from: &mut [i64], to: &mut [i64]) -> Copied;
}

pub trait CallFill: Debug {
    fn fill_lent(&self, list: Option<&mut [u8]>) -> Filled;

    fn fill(&self, list: &mut [u8]) -> Filled {
        self.fill_lent(Some(list))
    }

    /// A fill that is lent no list.
    fn fill_nothing(&self) -> Filled {
        self.fill_lent(None)
    }
}

pub trait CallTransfer: Debug {
    /// The lists are those of positions, sender's addresses and receiver's addresses.
    fn transfers(&self, lists: [&mut [i32]; 3]) -> Transferred;
}

impl Calls for Mapping {
    fn numbers(&self) -> &Mapping {
        self
    }

    fn refusal(&self) -> i32 {
        questions::of_mapping(self)
    }

    fn ownership(&self, index: i64) -> Owned {
        library::ownership(self, index)
    }

    fn going_back(&self, processor: i64, address: i64) -> Found {
        library::going_back(self, processor, address)
    }

    fn local_count(&self, processor: i64) -> Counted {
        library::local_count(self, processor)
    }

    fn section_steps(&self, triplet: &Triplet) -> Steps {
        section_library::section_steps(self, triplet)
    }

    fn first_place(&self, triplet: &Triplet, processor: i64) -> Placed {
        section_library::first_place(self, triplet, processor)
    }

    fn copy(&self, direction: Direction, from: &mut [i64], to: &mut [i64]) -> Copied {
        checkpoint_library::copy(direction, self, from, to)
    }
}

impl CallFill for Fill {
    fn fill_lent(&self, list: Option<&mut [u8]>) -> Filled {
        section_library::fill(self, list)
    }
}

impl CallTransfer for Transfer {
    fn transfers(&self, lists: [&mut [i32]; 3]) -> Transferred {
        transfer_library::transfers(self, lists)
    }
}
