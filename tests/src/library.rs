//! The library's C functions, as safe functions on plain numbers.
#![allow(unsafe_code)]

/// The eight numbers of a mapping. Nothing says that they are in range.
#[derive(Clone, Copy, Debug)]
pub struct Mapping {
    pub cells: i64,
    pub processors: i64,
    pub block: i64,
    pub stride: i64,
    pub offset: i64,
    pub size: i64,
    pub array_lower: i64,
    pub template_lower: i64,
}

impl Mapping {
    /// The numbers in the order of the calls' arguments.
    pub fn of(numbers: [i64; 8]) -> Mapping {
        let [cells, processors, block, stride, offset, size, array_lower, template_lower] = numbers;
        Mapping {
            cells,
            processors,
            block,
            stride,
            offset,
            size,
            array_lower,
            template_lower,
        }
    }
}

#[repr(C)]
#[derive(Clone, Copy, Debug, PartialEq, Eq)]
pub struct Owned {
    pub refusal: i32,
    pub processor: i32,
    pub address: i32,
}

#[repr(C)]
#[derive(Clone, Copy, Debug, PartialEq, Eq)]
pub struct Found {
    pub refusal: i32,
    pub index: i32,
}

#[repr(C)]
#[derive(Clone, Copy, Debug, PartialEq, Eq)]
pub struct Counted {
    pub refusal: i32,
    pub elements: i32,
}

extern "C" {
    fn hpf_ownership(
        cells: i64,
        processors: i64,
        block: i64,
        stride: i64,
        offset: i64,
        size: i64,
        array_lower: i64,
        template_lower: i64,
        index: i64,
    ) -> Owned;

    fn hpf_going_back(
        cells: i64,
        processors: i64,
        block: i64,
        stride: i64,
        offset: i64,
        size: i64,
        array_lower: i64,
        template_lower: i64,
        processor: i64,
        address: i64,
    ) -> Found;

    fn hpf_local_count(
        cells: i64,
        processors: i64,
        block: i64,
        stride: i64,
        offset: i64,
        size: i64,
        array_lower: i64,
        template_lower: i64,
        processor: i64,
    ) -> Counted;
}

pub fn ownership(m: &Mapping, index: i64) -> Owned {
    // SAFETY: numbers by value, and every number has an answer.
    unsafe {
        hpf_ownership(
            m.cells,
            m.processors,
            m.block,
            m.stride,
            m.offset,
            m.size,
            m.array_lower,
            m.template_lower,
            index,
        )
    }
}

pub fn going_back(m: &Mapping, processor: i64, address: i64) -> Found {
    // SAFETY: numbers by value, and every number has an answer.
    unsafe {
        hpf_going_back(
            m.cells,
            m.processors,
            m.block,
            m.stride,
            m.offset,
            m.size,
            m.array_lower,
            m.template_lower,
            processor,
            address,
        )
    }
}

pub fn local_count(m: &Mapping, processor: i64) -> Counted {
    // SAFETY: numbers by value, and every number has an answer.
    unsafe {
        hpf_local_count(
            m.cells,
            m.processors,
            m.block,
            m.stride,
            m.offset,
            m.size,
            m.array_lower,
            m.template_lower,
            processor,
        )
    }
}
