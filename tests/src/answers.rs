//! The answers that the library is to give: how they are made from places and
//! refusals, and for any numbers at all by the questions and the counting.

use crate::counting::Counting;
use crate::enumeration::{Array, Place};
use crate::library::{Counted, Found, Mapping, Owned};
use crate::questions;

impl Owned {
    pub fn at(place: Place) -> Owned {
        Owned {
            refusal: 0,
            processor: place.processor as i32,
            address: place.address as i32,
        }
    }

    pub fn refused(refusal: i32) -> Owned {
        Owned {
            refusal,
            processor: 0,
            address: 0,
        }
    }
}

impl Found {
    pub fn element(index: i64) -> Found {
        Found {
            refusal: 0,
            index: index as i32,
        }
    }

    pub fn refused(refusal: i32) -> Found {
        Found { refusal, index: 0 }
    }
}

impl Counted {
    pub fn elements(elements: u64) -> Counted {
        Counted {
            refusal: 0,
            elements: elements as i32,
        }
    }

    pub fn refused(refusal: i32) -> Counted {
        Counted {
            refusal,
            elements: 0,
        }
    }
}

impl Mapping {
    /// The cell of the first element, if there is one.
    pub fn first_cell(&self) -> i64 {
        self.stride * self.array_lower + self.offset - self.template_lower
    }

    /// The array of a mapping that questions 1 to 5, with 15, accept.
    pub fn array(&self) -> Array {
        Array {
            processors: self.processors as u64,
            block: self.block as u64,
            stride: self.stride as u64,
            offset: self.offset,
            size: self.size as u64,
            array_lower: self.array_lower,
            template_lower: self.template_lower,
        }
    }
}

pub fn ownership(m: &Mapping, index: i64) -> Owned {
    let refusal = match questions::of_mapping(m) {
        0 => questions::of_index(m, index),
        refusal => refusal,
    };
    match refusal {
        0 => Owned::at(Counting::cheapest(m.array()).place(index)),
        refusal => Owned::refused(refusal),
    }
}

pub fn local_count(m: &Mapping, processor: i64) -> Counted {
    match of_mapping_and_processor(m, processor) {
        0 => Counted::elements(Counting::cheapest(m.array()).held(processor as u64)),
        refusal => Counted::refused(refusal),
    }
}

pub fn going_back(m: &Mapping, processor: i64, address: i64) -> Found {
    match of_mapping_and_processor(m, processor) {
        0 => at_address(m, processor as u64, address),
        refusal => Found::refused(refusal),
    }
}

fn of_mapping_and_processor(m: &Mapping, processor: i64) -> i32 {
    match questions::of_mapping(m) {
        0 => questions::of_processor(m, processor),
        refusal => refusal,
    }
}

fn at_address(m: &Mapping, processor: u64, address: i64) -> Found {
    let counting = Counting::cheapest(m.array());
    match questions::of_address(counting.held(processor), address) {
        0 => Found::element(counting.element(Place {
            processor,
            address: address as u64,
        })),
        refusal => Found::refused(refusal),
    }
}
