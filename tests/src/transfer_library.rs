//! The library's C function of transfers, as a safe function on plain numbers
//! and lists.
#![allow(unsafe_code)]

use crate::lent::Lent;
use crate::library::Mapping;
use crate::section_library::Triplet;

/// One side of an assignment, its mapping and its section.
#[derive(Clone, Copy, Debug)]
pub struct Side {
    pub m: Mapping,
    pub triplet: Triplet,
}

impl Side {
    /// The numbers in the order of the call's arguments.
    pub fn of(numbers: [i64; 11]) -> Side {
        let [t, p, k, a, b, n, la, lt, l, h, s] = numbers;
        Side {
            m: Mapping::of([t, p, k, a, b, n, la, lt]),
            triplet: Triplet::of([l, h, s]),
        }
    }
}

/// All numbers of a transfer. Nothing says that they are in range.
#[derive(Clone, Copy, Debug)]
pub struct Transfer {
    pub left: Side,
    pub right: Side,
    pub sender: i64,
    pub receiver: i64,
}

#[repr(C)]
#[derive(Clone, Copy, Debug, PartialEq, Eq)]
pub struct Transferred {
    pub refusal: i32,
    pub entries: i32,
    pub needed: i32,
}

extern "C" {
    fn hpf_transfers(
        left_cells: i64,
        left_processors: i64,
        left_block: i64,
        left_stride: i64,
        left_offset: i64,
        left_size: i64,
        left_array_lower: i64,
        left_template_lower: i64,
        left_lower: i64,
        left_upper: i64,
        left_step: i64,
        right_cells: i64,
        right_processors: i64,
        right_block: i64,
        right_stride: i64,
        right_offset: i64,
        right_size: i64,
        right_array_lower: i64,
        right_template_lower: i64,
        right_lower: i64,
        right_upper: i64,
        right_step: i64,
        sender: i64,
        receiver: i64,
        positions: *mut i32,
        positions_entries: usize,
        sent: *mut i32,
        sent_entries: usize,
        received: *mut i32,
        received_entries: usize,
    ) -> Transferred;
}

/// The lists are those of positions, sender's addresses and receiver's addresses.
pub fn transfers(transfer: &Transfer, lists: [&mut [i32]; 3]) -> Transferred {
    let Transfer { left, right, .. } = transfer;
    let [positions, sent, received] = lists.map(Lent::of);
    // SAFETY: every number has an answer, and the lists, which do not overlap,
    // are lent for the call, each with its length.
    unsafe {
        hpf_transfers(
            left.m.cells,
            left.m.processors,
            left.m.block,
            left.m.stride,
            left.m.offset,
            left.m.size,
            left.m.array_lower,
            left.m.template_lower,
            left.triplet.lower,
            left.triplet.upper,
            left.triplet.step,
            right.m.cells,
            right.m.processors,
            right.m.block,
            right.m.stride,
            right.m.offset,
            right.m.size,
            right.m.array_lower,
            right.m.template_lower,
            right.triplet.lower,
            right.triplet.upper,
            right.triplet.step,
            transfer.sender,
            transfer.receiver,
            positions.0,
            positions.1,
            sent.0,
            sent.1,
            received.0,
            received.1,
        )
    }
}
