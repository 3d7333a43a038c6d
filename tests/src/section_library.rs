//! The library's C functions on sections, as safe functions on plain numbers
//! and lists of bytes.
#![allow(unsafe_code)]

use crate::lent::Lent;
use crate::library::Mapping;

/// The three numbers of a section. Nothing says that they are in range.
#[derive(Clone, Copy, Debug)]
pub struct Triplet {
    pub lower: i64,
    pub upper: i64,
    pub step: i64,
}

impl Triplet {
    pub fn of(numbers: [i64; 3]) -> Triplet {
        let [lower, upper, step] = numbers;
        Triplet { lower, upper, step }
    }
}

/// All numbers of a fill.
#[derive(Clone, Copy, Debug)]
pub struct Fill {
    pub m: Mapping,
    pub triplet: Triplet,
    pub processor: i64,
    pub place: i64,
    pub quota: i64,
}

impl Fill {
    pub fn of(m: [i64; 8], triplet: [i64; 3], [processor, place, quota]: [i64; 3]) -> Fill {
        Fill {
            m: Mapping::of(m),
            triplet: Triplet::of(triplet),
            processor,
            place,
            quota,
        }
    }
}

#[repr(C)]
#[derive(Clone, Copy, Debug, PartialEq, Eq)]
pub struct Steps {
    pub refusal: i64,
    pub count: i64,
    pub steps: i64,
    pub cells: i64,
    pub courses: i64,
    pub column: i64,
    pub return_cells: i64,
    pub return_courses: i64,
    pub return_column: i64,
}

#[repr(C)]
#[derive(Clone, Copy, Debug, PartialEq, Eq)]
pub struct Placed {
    pub refusal: i32,
    pub place: i32,
}

#[repr(C)]
#[derive(Clone, Copy, Debug, PartialEq, Eq)]
pub struct Filled {
    pub refusal: i32,
    pub entries: i32,
    pub tries: i32,
    pub place: i32,
}

extern "C" {
    fn hpf_section_steps(
        cells: i64,
        processors: i64,
        block: i64,
        stride: i64,
        offset: i64,
        size: i64,
        array_lower: i64,
        template_lower: i64,
        lower: i64,
        upper: i64,
        step: i64,
    ) -> Steps;

    fn hpf_first_place(
        cells: i64,
        processors: i64,
        block: i64,
        stride: i64,
        offset: i64,
        size: i64,
        array_lower: i64,
        template_lower: i64,
        lower: i64,
        upper: i64,
        step: i64,
        processor: i64,
    ) -> Placed;

    fn hpf_fill(
        cells: i64,
        processors: i64,
        block: i64,
        stride: i64,
        offset: i64,
        size: i64,
        array_lower: i64,
        template_lower: i64,
        lower: i64,
        upper: i64,
        step: i64,
        processor: i64,
        place: i64,
        quota: i64,
        list: *mut u8,
        list_bytes: usize,
    ) -> Filled;
}

pub fn section_steps(m: &Mapping, triplet: &Triplet) -> Steps {
    // SAFETY: numbers by value, and every number has an answer.
    unsafe {
        hpf_section_steps(
            m.cells,
            m.processors,
            m.block,
            m.stride,
            m.offset,
            m.size,
            m.array_lower,
            m.template_lower,
            triplet.lower,
            triplet.upper,
            triplet.step,
        )
    }
}

pub fn first_place(m: &Mapping, triplet: &Triplet, processor: i64) -> Placed {
    // SAFETY: numbers by value, and every number has an answer.
    unsafe {
        hpf_first_place(
            m.cells,
            m.processors,
            m.block,
            m.stride,
            m.offset,
            m.size,
            m.array_lower,
            m.template_lower,
            triplet.lower,
            triplet.upper,
            triplet.step,
            processor,
        )
    }
}

/// A fill of the list, or one that is lent none.
pub fn fill(fill: &Fill, list: Option<&mut [u8]>) -> Filled {
    let list = Lent::if_any(list);
    // SAFETY: every number has an answer, and the list is lent for the call, with its length.
    unsafe {
        hpf_fill(
            fill.m.cells,
            fill.m.processors,
            fill.m.block,
            fill.m.stride,
            fill.m.offset,
            fill.m.size,
            fill.m.array_lower,
            fill.m.template_lower,
            fill.triplet.lower,
            fill.triplet.upper,
            fill.triplet.step,
            fill.processor,
            fill.place,
            fill.quota,
            list.0,
            list.1,
        )
    }
}
