//! The library's C functions on grids, as safe functions.
#![allow(unsafe_code)]

use crate::calls::CallFill;
use crate::gen_block::sizes::Sizes;
use crate::gen_block::transfer_library::Side;
use crate::lent::{Lent, Read};
use crate::library::{Mapping, Owned};
use crate::section_library::{Filled, Placed, Steps, Triplet};

pub const DIMENSIONS: usize = 3;

/// A grid and a section of it: each dimension is a mapping with a triplet, as a side of an
/// assignment is. Nothing says that it is in range.
#[derive(Clone, Debug)]
pub struct Grid {
    pub rank: i64,
    pub dimensions: [Side; DIMENSIONS],
}

impl Grid {
    /// The rank is the number of dimensions. In those past it everything is at fault.
    pub fn of(dimensions: &[Side]) -> Grid {
        let given = |place| dimensions.get(place).cloned();
        Grid {
            rank: dimensions.len() as i64,
            dimensions: std::array::from_fn(|place| given(place).unwrap_or_else(at_fault)),
        }
    }

    /// The dimensions of a rank that is accepted.
    pub fn used(&self) -> &[Side] {
        &self.dimensions[..self.rank as usize]
    }
}

/// A dimension in blocks, and one that is dealt by sizes: what it does not look at is at fault.
pub fn in_blocks(numbers: [i64; 8], triplet: [i64; 3]) -> Side {
    Side {
        m: Mapping::of(numbers),
        dealing: 0,
        sizes: Sizes::of(&[-1]),
        triplet: Triplet::of(triplet),
    }
}

/// T, p, a, b, n, La and Lt.
pub fn by_sizes(numbers: [i64; 7], sizes: &[i32], triplet: [i64; 3]) -> Side {
    let [t, p, a, b, n, la, lt] = numbers;
    Side {
        m: Mapping::of([t, p, i64::MIN, a, b, n, la, lt]),
        dealing: 1,
        sizes: Sizes::of(sizes),
        triplet: Triplet::of(triplet),
    }
}

fn at_fault() -> Side {
    by_sizes([0, -1, 0, i64::MIN, -1, i64::MAX, i64::MIN], &[-1], [0; 3])
}

/// All numbers of a fill, and the sizes.
#[derive(Clone, Debug)]
pub struct Fill {
    pub grid: Grid,
    pub processor: i64,
    pub place: i64,
    pub quota: i64,
}

#[repr(C)]
#[derive(Clone, Copy, Debug, PartialEq, Eq)]
pub struct GridFound {
    pub refusal: i32,
    pub indices: [i32; DIMENSIONS],
}

#[repr(C)]
#[derive(Clone, Copy, Debug, PartialEq, Eq)]
pub struct GridSteps {
    pub refusal: i64,
    pub count: i64,
    pub dimensions: [Steps; DIMENSIONS],
}

#[repr(C)]
struct GivenDimension {
    cells: i64,
    processors: i64,
    dealing: i64,
    block: i64,
    stride: i64,
    offset: i64,
    size: i64,
    array_lower: i64,
    template_lower: i64,
}

#[repr(C)]
struct GivenGrid {
    rank: i64,
    dimensions: [GivenDimension; DIMENSIONS],
}

#[repr(C)]
struct GivenTriplet {
    lower: i64,
    upper: i64,
    stride: i64,
}

#[repr(C)]
struct GivenSection {
    grid: GivenGrid,
    triplets: [GivenTriplet; DIMENSIONS],
}

extern "C" {
    fn hpf_grid_ownership(
        grid: GivenGrid,
        first_sizes: *const u8,
        first_sizes_bytes: usize,
        second_sizes: *const u8,
        second_sizes_bytes: usize,
        third_sizes: *const u8,
        third_sizes_bytes: usize,
        first: i64,
        second: i64,
        third: i64,
    ) -> Owned;

    fn hpf_grid_going_back(
        grid: GivenGrid,
        first_sizes: *const u8,
        first_sizes_bytes: usize,
        second_sizes: *const u8,
        second_sizes_bytes: usize,
        third_sizes: *const u8,
        third_sizes_bytes: usize,
        processor: i64,
        address: i64,
    ) -> GridFound;

    fn hpf_grid_section_steps(
        section: GivenSection,
        first_sizes: *const u8,
        first_sizes_bytes: usize,
        second_sizes: *const u8,
        second_sizes_bytes: usize,
        third_sizes: *const u8,
        third_sizes_bytes: usize,
    ) -> GridSteps;

    fn hpf_grid_first_place(
        section: GivenSection,
        first_sizes: *const u8,
        first_sizes_bytes: usize,
        second_sizes: *const u8,
        second_sizes_bytes: usize,
        third_sizes: *const u8,
        third_sizes_bytes: usize,
        processor: i64,
    ) -> Placed;

    fn hpf_grid_fill(
        section: GivenSection,
        first_sizes: *const u8,
        first_sizes_bytes: usize,
        second_sizes: *const u8,
        second_sizes_bytes: usize,
        third_sizes: *const u8,
        third_sizes_bytes: usize,
        processor: i64,
        place: i64,
        quota: i64,
        list: *mut u8,
        list_bytes: usize,
    ) -> Filled;
}

impl Grid {
    fn given(&self) -> GivenGrid {
        let dimensions = self.dimensions.each_ref().map(|side| GivenDimension {
            cells: side.m.cells,
            processors: side.m.processors,
            dealing: side.dealing,
            block: side.m.block,
            stride: side.m.stride,
            offset: side.m.offset,
            size: side.m.size,
            array_lower: side.m.array_lower,
            template_lower: side.m.template_lower,
        });
        GivenGrid {
            rank: self.rank,
            dimensions,
        }
    }

    fn given_section(&self) -> GivenSection {
        let triplets = self.dimensions.each_ref().map(|side| GivenTriplet {
            lower: side.triplet.lower,
            upper: side.triplet.upper,
            stride: side.triplet.step,
        });
        GivenSection {
            grid: self.given(),
            triplets,
        }
    }

    fn sizes(&self) -> [Read<u8>; DIMENSIONS] {
        let dimensions = self.dimensions.each_ref();
        dimensions.map(|side| Read::of(side.sizes.bytes()))
    }

    pub fn ownership(&self, [i, j, k]: [i64; DIMENSIONS]) -> Owned {
        let [b, c, d] = self.sizes();
        // SAFETY: every number has an answer, and the sizes are lent for the call.
        unsafe { hpf_grid_ownership(self.given(), b.0, b.1, c.0, c.1, d.0, d.1, i, j, k) }
    }

    pub fn going_back(&self, processor: i64, address: i64) -> GridFound {
        let ([b, c, d], grid) = (self.sizes(), self.given());
        // SAFETY: every number has an answer, and the sizes are lent for the call.
        unsafe { hpf_grid_going_back(grid, b.0, b.1, c.0, c.1, d.0, d.1, processor, address) }
    }

    pub fn section_steps(&self) -> GridSteps {
        let [b, c, d] = self.sizes();
        // SAFETY: every number has an answer, and the sizes are lent for the call.
        unsafe { hpf_grid_section_steps(self.given_section(), b.0, b.1, c.0, c.1, d.0, d.1) }
    }

    pub fn first_place(&self, processor: i64) -> Placed {
        let ([b, c, d], section) = (self.sizes(), self.given_section());
        // SAFETY: every number has an answer, and the sizes are lent for the call.
        unsafe { hpf_grid_first_place(section, b.0, b.1, c.0, c.1, d.0, d.1, processor) }
    }
}

impl CallFill for Fill {
    fn fill_lent(&self, list: Option<&mut [u8]>) -> Filled {
        let [b, c, d] = self.grid.sizes();
        let list = Lent::if_any(list);
        // SAFETY: every number has an answer, and the sizes and the list, with its length, are lent for the call.
        unsafe {
            hpf_grid_fill(
                self.grid.given_section(),
                b.0,
                b.1,
                c.0,
                c.1,
                d.0,
                d.1,
                self.processor,
                self.place,
                self.quota,
                list.0,
                list.1,
            )
        }
    }
}
