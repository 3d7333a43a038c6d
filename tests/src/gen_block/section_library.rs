//! The library's C functions on sections of a template that is dealt by a list of sizes,
//! as safe functions.
#![allow(unsafe_code)]

use crate::calls::CallFill;
use crate::gen_block::library::GenBlock;
use crate::lent::{Lent, Read};
use crate::section_library::{Filled, Placed, Steps, Triplet};

/// All numbers of a fill, and the sizes.
#[derive(Clone, Debug)]
pub struct Fill {
    pub g: GenBlock,
    pub triplet: Triplet,
    pub processor: i64,
    pub place: i64,
    pub quota: i64,
}

extern "C" {
    fn hpf_gen_block_section_steps(
        cells: i64,
        processors: i64,
        sizes: *const u8,
        sizes_bytes: usize,
        stride: i64,
        offset: i64,
        size: i64,
        array_lower: i64,
        template_lower: i64,
        lower: i64,
        upper: i64,
        step: i64,
    ) -> Steps;

    fn hpf_gen_block_first_place(
        cells: i64,
        processors: i64,
        sizes: *const u8,
        sizes_bytes: usize,
        stride: i64,
        offset: i64,
        size: i64,
        array_lower: i64,
        template_lower: i64,
        lower: i64,
        upper: i64,
        step: i64,
        processor: i64,
    ) -> Placed;

    fn hpf_gen_block_fill(
        cells: i64,
        processors: i64,
        sizes: *const u8,
        sizes_bytes: usize,
        stride: i64,
        offset: i64,
        size: i64,
        array_lower: i64,
        template_lower: i64,
        lower: i64,
        upper: i64,
        step: i64,
        processor: i64,
        place: i64,
        quota: i64,
        list: *mut u8,
        list_bytes: usize,
    ) -> Filled;
}

pub fn section_steps(g: &GenBlock, triplet: &Triplet) -> Steps {
    let (m, sizes) = (&g.m, Read::of(g.sizes.bytes()));
    // SAFETY: every number has an answer, and the sizes are lent for the call.
    unsafe {
        hpf_gen_block_section_steps(
            m.cells,
            m.processors,
            sizes.0,
            sizes.1,
            m.stride,
            m.offset,
            m.size,
            m.array_lower,
            m.template_lower,
            triplet.lower,
            triplet.upper,
            triplet.step,
        )
    }
}

pub fn first_place(g: &GenBlock, triplet: &Triplet, processor: i64) -> Placed {
    let (m, sizes) = (&g.m, Read::of(g.sizes.bytes()));
    // SAFETY: every number has an answer, and the sizes are lent for the call.
    unsafe {
        hpf_gen_block_first_place(
            m.cells,
            m.processors,
            sizes.0,
            sizes.1,
            m.stride,
            m.offset,
            m.size,
            m.array_lower,
            m.template_lower,
            triplet.lower,
            triplet.upper,
            triplet.step,
            processor,
        )
    }
}

impl CallFill for Fill {
    fn fill_lent(&self, list: Option<&mut [u8]>) -> Filled {
        let (m, sizes) = (&self.g.m, Read::of(self.g.sizes.bytes()));
        let list = Lent::if_any(list);
        // SAFETY: every number has an answer, and the sizes and the list, with its length, are lent for the call.
        unsafe {
            hpf_gen_block_fill(
                m.cells,
                m.processors,
                sizes.0,
                sizes.1,
                m.stride,
                m.offset,
                m.size,
                m.array_lower,
                m.template_lower,
                self.triplet.lower,
                self.triplet.upper,
                self.triplet.step,
                self.processor,
                self.place,
                self.quota,
                list.0,
                list.1,
            )
        }
    }
}
