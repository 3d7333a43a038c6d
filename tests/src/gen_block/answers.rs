//! The answers that the library is to give for any numbers and sizes at all: by the
//! questions and the runs.

use crate::gen_block::enumeration;
use crate::gen_block::library::GenBlock;
use crate::gen_block::questions;
use crate::gen_block::runs::Runs;
use crate::gen_block::section_library::Fill;
use crate::gen_block::transfer_library::{Side, Transfer};
use crate::library::{Counted, Found, Owned};
use crate::questions::{of_address, of_index, of_processor};
use crate::section_comparison::Filling;
use crate::section_library::{Placed, Steps, Triplet};
use crate::transfer_comparison::Transferring;
use crate::transfer_enumeration::{pair, Half, Places};
use crate::transfer_library;

pub fn ownership(g: &GenBlock, index: i64) -> Owned {
    match first_refusal(questions::of_mapping(g), || of_index(&g.m, index)) {
        0 => Owned::at(Runs::of(g).place(index)),
        refusal => Owned::refused(refusal),
    }
}

pub fn local_count(g: &GenBlock, processor: i64) -> Counted {
    match first_refusal(questions::of_mapping(g), || of_processor(&g.m, processor)) {
        0 => {
            let held = Runs::of(g).held(processor as u64);
            Counted::elements((held.end - held.start) as u64)
        }
        refusal => Counted::refused(refusal),
    }
}

pub fn going_back(g: &GenBlock, processor: i64, address: i64) -> Found {
    match first_refusal(questions::of_mapping(g), || of_processor(&g.m, processor)) {
        0 => {
            let held = Runs::of(g).held(processor as u64);
            match of_address((held.end - held.start) as u64, address) {
                0 => Found::element(held.start + address),
                refusal => Found::refused(refusal),
            }
        }
        refusal => Found::refused(refusal),
    }
}

pub fn section_steps(g: &GenBlock, triplet: &Triplet) -> Steps {
    match questions::of_mapping_and_section(g, triplet) {
        0 => enumeration::steps(g, triplet),
        refusal => Steps::refused(refusal),
    }
}

pub fn first_place(g: &GenBlock, triplet: &Triplet, processor: i64) -> Placed {
    match questions::of_list(g, triplet, processor) {
        0 => Placed::at(Runs::of(g).first_place(triplet, processor as u64, 0)),
        refusal => Placed::refused(refusal),
    }
}

/// What a fill does with a list of so many entries.
pub fn fill(fill: &Fill, room: usize) -> Filling {
    match questions::of_fill(fill) {
        0 => {
            let (processor, place) = (fill.processor as u64, fill.place as u64);
            let list = Runs::of(&fill.g).list(&fill.triplet, processor, place, room);
            let entries = list.taken_next(0, fill.quota as u64, room);
            Filling::of(entries, list.place_after(entries.len()))
        }
        refusal => Filling::refused(refusal),
    }
}

/// What a transfer does with lists of so many entries.
pub fn transfers(transfer: &Transfer, rooms: [usize; 3]) -> Transferring {
    match questions::of_transfer(transfer) {
        0 => {
            let [left, right] = [&transfer.left, &transfer.right].map(half);
            let (sender, receiver) = (transfer.sender as u64, transfer.receiver as u64);
            Transferring::of(&pair(&left, &right, sender, receiver), rooms)
        }
        refusal => Transferring::refused(refusal),
    }
}

/// A side that is accepted.
pub fn half(side: &Side) -> Half {
    if side.has_sizes() {
        let runs = Runs::of(&side.gen_block());
        return Half::new(runs, side.m.processors, side.triplet);
    }
    Half::of_any_size(&transfer_library::Side {
        m: side.m,
        triplet: side.triplet,
    })
}

fn first_refusal(first: i32, second: impl FnOnce() -> i32) -> i32 {
    match first {
        0 => second(),
        refusal => refusal,
    }
}
