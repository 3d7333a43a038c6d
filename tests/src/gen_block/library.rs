//! The library's C functions on a template that is dealt by a list of sizes, as safe
//! functions: elements and checkpoints.
#![allow(unsafe_code)]

use crate::calls::Calls;
use crate::checkpoint_library::{Copied, Direction};
use crate::gen_block::questions;
use crate::gen_block::section_library;
use crate::gen_block::sizes::Sizes;
use crate::lent::{Lent, Read};
use crate::library::{Counted, Found, Mapping, Owned};
use crate::section_library::{Placed, Steps, Triplet};

/// A mapping with a list of sizes. Nothing says that it is in range; the block is none
/// of its numbers.
#[derive(Clone, Debug)]
pub struct GenBlock {
    pub m: Mapping,
    pub sizes: Sizes,
}

impl GenBlock {
    /// T, p, a, b, n, La and Lt.
    pub fn of(numbers: [i64; 7], sizes: &[i32]) -> GenBlock {
        let [t, p, a, b, n, la, lt] = numbers;
        GenBlock {
            m: Mapping::of([t, p, i64::MIN, a, b, n, la, lt]),
            sizes: Sizes::of(sizes),
        }
    }

    pub fn with(&self, m: Mapping) -> GenBlock {
        GenBlock { m, ..self.clone() }
    }
}

extern "C" {
    fn hpf_gen_block_ownership(
        cells: i64,
        processors: i64,
        sizes: *const u8,
        sizes_bytes: usize,
        stride: i64,
        offset: i64,
        size: i64,
        array_lower: i64,
        template_lower: i64,
        index: i64,
    ) -> Owned;

    fn hpf_gen_block_going_back(
        cells: i64,
        processors: i64,
        sizes: *const u8,
        sizes_bytes: usize,
        stride: i64,
        offset: i64,
        size: i64,
        array_lower: i64,
        template_lower: i64,
        processor: i64,
        address: i64,
    ) -> Found;

    fn hpf_gen_block_local_count(
        cells: i64,
        processors: i64,
        sizes: *const u8,
        sizes_bytes: usize,
        stride: i64,
        offset: i64,
        size: i64,
        array_lower: i64,
        template_lower: i64,
        processor: i64,
    ) -> Counted;

    fn hpf_gen_block_checkpoint(
        cells: i64,
        processors: i64,
        sizes: *const u8,
        sizes_bytes: usize,
        stride: i64,
        offset: i64,
        size: i64,
        array_lower: i64,
        template_lower: i64,
        storage: *const i64,
        storage_words: usize,
        saved: *mut i64,
        saved_words: usize,
    ) -> Copied;

    fn hpf_gen_block_restore(
        cells: i64,
        processors: i64,
        sizes: *const u8,
        sizes_bytes: usize,
        stride: i64,
        offset: i64,
        size: i64,
        array_lower: i64,
        template_lower: i64,
        saved: *const i64,
        saved_words: usize,
        storage: *mut i64,
        storage_words: usize,
    ) -> Copied;
}

impl Calls for GenBlock {
    fn numbers(&self) -> &Mapping {
        &self.m
    }

    fn refusal(&self) -> i32 {
        questions::of_mapping(self)
    }

    fn ownership(&self, index: i64) -> Owned {
        let (m, sizes) = (&self.m, Read::of(self.sizes.bytes()));
        // SAFETY: every number has an answer, and the sizes are lent for the call.
        unsafe {
            hpf_gen_block_ownership(
                m.cells,
                m.processors,
                sizes.0,
                sizes.1,
                m.stride,
                m.offset,
                m.size,
                m.array_lower,
                m.template_lower,
                index,
            )
        }
    }

    fn going_back(&self, processor: i64, address: i64) -> Found {
        let (m, sizes) = (&self.m, Read::of(self.sizes.bytes()));
        // SAFETY: every number has an answer, and the sizes are lent for the call.
        unsafe {
            hpf_gen_block_going_back(
                m.cells,
                m.processors,
                sizes.0,
                sizes.1,
                m.stride,
                m.offset,
                m.size,
                m.array_lower,
                m.template_lower,
                processor,
                address,
            )
        }
    }

    fn local_count(&self, processor: i64) -> Counted {
        let (m, sizes) = (&self.m, Read::of(self.sizes.bytes()));
        // SAFETY: every number has an answer, and the sizes are lent for the call.
        unsafe {
            hpf_gen_block_local_count(
                m.cells,
                m.processors,
                sizes.0,
                sizes.1,
                m.stride,
                m.offset,
                m.size,
                m.array_lower,
                m.template_lower,
                processor,
            )
        }
    }

    fn section_steps(&self, triplet: &Triplet) -> Steps {
        section_library::section_steps(self, triplet)
    }

    fn first_place(&self, triplet: &Triplet, processor: i64) -> Placed {
        section_library::first_place(self, triplet, processor)
    }

    fn copy(&self, direction: Direction, from: &mut [i64], to: &mut [i64]) -> Copied {
        let function = match direction {
            Direction::Checkpoint => hpf_gen_block_checkpoint,
            Direction::Restore => hpf_gen_block_restore,
        };
        let (m, sizes) = (&self.m, Read::of(self.sizes.bytes()));
        let (from, to) = (Lent::of(from), Lent::of(to));
        // SAFETY: every number has an answer, and the lists, which do not overlap, are
        // lent for the call, each with its length.
        unsafe {
            function(
                m.cells,
                m.processors,
                sizes.0,
                sizes.1,
                m.stride,
                m.offset,
                m.size,
                m.array_lower,
                m.template_lower,
                from.0,
                from.1,
                to.0,
                to.1,
            )
        }
    }
}
