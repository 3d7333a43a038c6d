//! The library's C functions of checkpoints, as a safe function on plain numbers and
//! lists.
#![allow(unsafe_code)]

use crate::lent::Lent;
use crate::library::Mapping;

/// From storage to index order, and back.
#[derive(Clone, Copy, Debug)]
pub enum Direction {
    Checkpoint,
    Restore,
}

pub const DIRECTIONS: [Direction; 2] = [Direction::Checkpoint, Direction::Restore];

#[repr(C)]
#[derive(Clone, Copy, Debug, PartialEq, Eq)]
pub struct Copied {
    pub refusal: i32,
    pub needed: i32,
}

extern "C" {
    fn hpf_checkpoint(
        cells: i64,
        processors: i64,
        block: i64,
        stride: i64,
        offset: i64,
        size: i64,
        array_lower: i64,
        template_lower: i64,
        storage: *const i64,
        storage_words: usize,
        saved: *mut i64,
        saved_words: usize,
    ) -> Copied;

    fn hpf_restore(
        cells: i64,
        processors: i64,
        block: i64,
        stride: i64,
        offset: i64,
        size: i64,
        array_lower: i64,
        template_lower: i64,
        saved: *const i64,
        saved_words: usize,
        storage: *mut i64,
        storage_words: usize,
    ) -> Copied;
}

/// The list that is read may be changed, so that a wrong write into it shows.
pub fn copy(direction: Direction, m: &Mapping, from: &mut [i64], to: &mut [i64]) -> Copied {
    let function = match direction {
        Direction::Checkpoint => hpf_checkpoint,
        Direction::Restore => hpf_restore,
    };
    let (from, to) = (Lent::of(from), Lent::of(to));
    // SAFETY: every number has an answer, and the lists, which do not overlap, are
    // lent for the call, each with its length.
    unsafe {
        function(
            m.cells,
            m.processors,
            m.block,
            m.stride,
            m.offset,
            m.size,
            m.array_lower,
            m.template_lower,
            from.0,
            from.1,
            to.0,
            to.1,
        )
    }
}
