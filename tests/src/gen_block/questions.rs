//! The questions that a call asks of a template that is dealt by a list of sizes: those
//! of a block, but for 16, which stands in the place of 3.

use crate::gen_block::library::GenBlock;
use crate::gen_block::runs::Runs;
use crate::gen_block::section_library::Fill;
use crate::gen_block::transfer_library::{Side, Transfer};
use crate::library::Mapping;
use crate::questions::{self, first_no, of_quota, of_section};
use crate::section_enumeration::{count, element};
use crate::section_library::Triplet;
use crate::transfer_enumeration::Places;

/// Questions 1, 2, 16, 4, and the rest. With a block of 1 the answer to 3 is yes.
pub fn of_mapping(g: &GenBlock) -> i32 {
    match questions::of_mapping(&Mapping { block: 1, ..g.m }) {
        refusal @ (1 | 2) => refusal,
        refusal => match of_sizes(g) {
            0 => refusal,
            sixteen => sixteen,
        },
    }
}

/// Question 16, of T and p that pass the questions before it.
fn of_sizes(g: &GenBlock) -> i32 {
    let has_p_entries = g.sizes.bytes().len() as i64 == 4 * g.m.processors;
    let sum: i128 = g.sizes.numbers().map(i128::from).sum();
    first_no(&[
        (16, has_p_entries),
        (16, g.sizes.numbers().all(|size| size >= 0)),
        (16, sum >= i128::from(g.m.cells)),
    ])
}

/// Questions 1 to 7, with 15 and 16.
pub fn of_mapping_and_section(g: &GenBlock, triplet: &Triplet) -> i32 {
    match of_mapping(g) {
        0 => of_section(&g.m, triplet),
        refusal => refusal,
    }
}

/// Questions 1 to 8, with 15 and 16.
pub fn of_list(g: &GenBlock, triplet: &Triplet, processor: i64) -> i32 {
    match of_mapping_and_section(g, triplet) {
        0 => questions::of_processor(&g.m, processor),
        refusal => refusal,
    }
}

/// Questions 1 to 8, with 15 and 16, then 10 and 11.
pub fn of_fill(fill: &Fill) -> i32 {
    match of_list(&fill.g, &fill.triplet, fill.processor) {
        0 => first_no(&[(10, is_place(fill)), (11, of_quota(fill.quota) == 0)]),
        refusal => refusal,
    }
}

/// Whether the place is the count, or a position whose element the processor owns.
fn is_place(fill: &Fill) -> bool {
    let count = count(&fill.triplet) as i64;
    let owner = |place| Runs::of(&fill.g).owner(element(&fill.triplet, place));
    let is_owned = |place: i64| owner(place as u64) == fill.processor as u64;
    fill.place == count || (0..count).contains(&fill.place) && is_owned(fill.place)
}

/// Questions 1 to 7 of a side, with 15, and 16 if it has sizes.
pub fn of_side(side: &Side) -> i32 {
    if side.has_sizes() {
        of_mapping_and_section(&side.gen_block(), &side.triplet)
    } else {
        questions::of_mapping_and_section(&side.m, &side.triplet)
    }
}

/// Those of the left side, of the right, 8 of the sender, 8 of the receiver, and 12.
/// Question 13 is left to who knows the entries.
pub fn of_transfer(transfer: &Transfer) -> i32 {
    let Transfer { left, right, .. } = transfer;
    let sides = [left, right].map(of_side);
    match sides.into_iter().find(|&refusal| refusal != 0) {
        None => first_no(&[
            (8, (0..right.m.processors).contains(&transfer.sender)),
            (8, (0..left.m.processors).contains(&transfer.receiver)),
            (12, count(&left.triplet) == count(&right.triplet)),
        ]),
        Some(refusal) => refusal,
    }
}
