//! The library's C function of transfers between two dealings, as a safe function.
#![allow(unsafe_code)]

use crate::calls::CallTransfer;
use crate::gen_block::library::GenBlock;
use crate::gen_block::sizes::Sizes;
use crate::lent::{Lent, Read};
use crate::library::Mapping;
use crate::section_library::Triplet;
use crate::transfer_library::Transferred;

/// One side of an assignment. It has a block and sizes, of which only the one that
/// concerns its dealing, 0 for cyclic, is looked at.
#[derive(Clone, Debug)]
pub struct Side {
    pub m: Mapping,
    pub dealing: i64,
    pub sizes: Sizes,
    pub triplet: Triplet,
}

impl Side {
    pub fn has_sizes(&self) -> bool {
        self.dealing != 0
    }

    pub fn gen_block(&self) -> GenBlock {
        GenBlock {
            m: self.m,
            sizes: self.sizes.clone(),
        }
    }
}

/// All numbers of a transfer, and the sizes.
#[derive(Clone, Debug)]
pub struct Transfer {
    pub left: Side,
    pub right: Side,
    pub sender: i64,
    pub receiver: i64,
}

extern "C" {
    fn hpf_transfers_between(
        left_cells: i64,
        left_processors: i64,
        left_dealing: i64,
        left_block: i64,
        left_sizes: *const u8,
        left_sizes_bytes: usize,
        left_stride: i64,
        left_offset: i64,
        left_size: i64,
        left_array_lower: i64,
        left_template_lower: i64,
        left_lower: i64,
        left_upper: i64,
        left_step: i64,
        right_cells: i64,
        right_processors: i64,
        right_dealing: i64,
        right_block: i64,
        right_sizes: *const u8,
        right_sizes_bytes: usize,
        right_stride: i64,
        right_offset: i64,
        right_size: i64,
        right_array_lower: i64,
        right_template_lower: i64,
        right_lower: i64,
        right_upper: i64,
        right_step: i64,
        sender: i64,
        receiver: i64,
        positions: *mut i32,
        positions_entries: usize,
        sent: *mut i32,
        sent_entries: usize,
        received: *mut i32,
        received_entries: usize,
    ) -> Transferred;
}

impl CallTransfer for Transfer {
    fn transfers(&self, lists: [&mut [i32]; 3]) -> Transferred {
        let Transfer { left, right, .. } = self;
        let [positions, sent, received] = lists.map(Lent::of);
        let [left_sizes, right_sizes] = [left, right].map(|side| Read::of(side.sizes.bytes()));
        // SAFETY: every number has an answer, and the lists, which do not overlap,
        // are lent for the call, each with its length.
        #[rustfmt::skip]
        let answer = unsafe {
            hpf_transfers_between(
                left.m.cells, left.m.processors, left.dealing, left.m.block, left_sizes.0, left_sizes.1,
                left.m.stride, left.m.offset, left.m.size, left.m.array_lower, left.m.template_lower,
                left.triplet.lower, left.triplet.upper, left.triplet.step,
                right.m.cells, right.m.processors, right.dealing, right.m.block, right_sizes.0, right_sizes.1,
                right.m.stride, right.m.offset, right.m.size, right.m.array_lower, right.m.template_lower,
                right.triplet.lower, right.triplet.upper, right.triplet.step,
                self.sender, self.receiver,
                positions.0, positions.1, sent.0, sent.1, received.0, received.1,
            )
        };
        answer
    }
}
