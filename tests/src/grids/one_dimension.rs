//! The expected answers of one dimension of a grid, whichever its dealing and however large.

use crate::answers;
use crate::gen_block;
use crate::gen_block::transfer_library::Side;
use crate::library::{Counted, Found, Owned};
use crate::section_answers;
use crate::section_comparison::Filling;
use crate::section_library::{Fill, Placed, Steps};

const LARGEST_QUOTA: i64 = 1_000_000;

pub fn ownership(side: &Side, index: i64) -> Owned {
    if side.has_sizes() {
        gen_block::answers::ownership(&side.gen_block(), index)
    } else {
        answers::ownership(&side.m, index)
    }
}

pub fn local_count(side: &Side, processor: i64) -> Counted {
    if side.has_sizes() {
        gen_block::answers::local_count(&side.gen_block(), processor)
    } else {
        answers::local_count(&side.m, processor)
    }
}

pub fn going_back(side: &Side, processor: i64, address: i64) -> Found {
    if side.has_sizes() {
        gen_block::answers::going_back(&side.gen_block(), processor, address)
    } else {
        answers::going_back(&side.m, processor, address)
    }
}

pub fn section_steps(side: &Side) -> Steps {
    if side.has_sizes() {
        gen_block::answers::section_steps(&side.gen_block(), &side.triplet)
    } else {
        section_answers::section_steps(&side.m, &side.triplet)
    }
}

pub fn first_place(side: &Side, processor: i64) -> Placed {
    if side.has_sizes() {
        gen_block::answers::first_place(&side.gen_block(), &side.triplet, processor)
    } else {
        section_answers::first_place(&side.m, &side.triplet, processor)
    }
}

/// A fill of one entry: its address, its tries, and the next place.
pub fn fill_one(side: &Side, processor: i64, place: i64) -> Filling {
    if side.has_sizes() {
        let fill = gen_block::section_library::Fill {
            g: side.gen_block(),
            triplet: side.triplet,
            processor,
            place,
            quota: LARGEST_QUOTA,
        };
        return gen_block::answers::fill(&fill, 1);
    }
    let fill = Fill {
        m: side.m,
        triplet: side.triplet,
        processor,
        place,
        quota: LARGEST_QUOTA,
    };
    section_answers::fill(&fill, 1)
}
