//! Where each element of an array lies in storage, straight from the definition.

use std::ops::Range;

use crate::enumeration::{enumerate, Enumeration};
use crate::library::Mapping;

/// A mapping, and the place in storage of each of its elements, in index order.
pub struct Layout<M> {
    pub m: M,
    pub places: Vec<usize>,
}

impl Layout<Mapping> {
    /// Of a mapping that is accepted.
    pub fn of(m: &Mapping) -> Layout<Mapping> {
        let array = m.array();
        Layout::by_places(m, array.indices(), array.processors, &enumerate(&array))
    }
}

impl<M: Clone> Layout<M> {
    /// An element lies after all elements of lower processors, at its local address.
    pub fn by_places(
        m: &M,
        indices: Range<i64>,
        processors: u64,
        enumeration: &Enumeration,
    ) -> Layout<M> {
        let held = |processor| enumeration.held_below(indices.end, processor);
        let mut starts = vec![0];
        for processor in 0..processors as usize {
            starts.push(starts[processor] + held(processor as u64).len());
        }
        let place = |index| {
            let owned = enumeration.place(index);
            starts[owned.processor as usize] + owned.address as usize
        };
        Layout {
            m: m.clone(),
            places: indices.clone().map(place).collect(),
        }
    }

    /// Of any numbers, for calls that are refused.
    pub fn unknown(m: &M) -> Layout<M> {
        Layout {
            m: m.clone(),
            places: Vec::new(),
        }
    }
}
