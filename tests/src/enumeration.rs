//! Ownership and local addresses by enumeration, straight from their definitions.

use std::ops::Range;

/// An array whose mapping is accepted. The number of template cells is left
/// out: it decides what is accepted, and no answer.
#[derive(Clone, Copy, Debug)]
pub struct Array {
    pub processors: u64,
    pub block: u64,
    pub stride: u64,
    pub offset: i64,
    pub size: u64,
    pub array_lower: i64,
    pub template_lower: i64,
}

/// Where an element is.
#[derive(Clone, Copy, Debug, PartialEq, Eq)]
pub struct Place {
    pub processor: u64,
    pub address: u64,
}

impl Array {
    /// The declared indices.
    pub fn indices(&self) -> Range<i64> {
        self.array_lower..self.array_lower + self.size as i64
    }

    /// Declared index j sits on declared cell a·j + b. Cells count from the
    /// template's lower bound.
    pub fn cell(&self, index: i64) -> u64 {
        let declared_cell = self.stride as i64 * index + self.offset;
        let cell = declared_cell - self.template_lower;
        cell.try_into().expect("no element sits before cell 0")
    }

    pub fn owner(&self, index: i64) -> u64 {
        self.cell(index) / self.block % self.processors
    }
}

/// All elements of an array, each way.
pub struct Enumeration {
    array_lower: i64,
    /// The place of each element, from the array's lower bound on.
    places: Vec<Place>,
    /// The elements of each processor, by address.
    held: Vec<Vec<i64>>,
}

impl Enumeration {
    pub fn place(&self, index: i64) -> Place {
        self.places[(index - self.array_lower) as usize]
    }

    /// The elements of index below `end` that the processor holds, by address.
    pub fn held_below(&self, end: i64, processor: u64) -> &[i64] {
        let held = &self.held[processor as usize];
        &held[..held.partition_point(|&index| index < end)]
    }
}

pub fn enumerate(array: &Array) -> Enumeration {
    enumerate_owned(array.indices(), array.processors, |index| {
        array.owner(index)
    })
}

/// An element's address is how many elements of lower index have its owner.
pub fn enumerate_owned(
    indices: Range<i64>,
    processors: u64,
    owner: impl Fn(i64) -> u64,
) -> Enumeration {
    let array_lower = indices.start;
    let mut places = Vec::new();
    let mut held = vec![Vec::new(); processors as usize];
    for index in indices {
        let processor = owner(index);
        let own = &mut held[processor as usize];
        places.push(Place {
            processor,
            address: own.len() as u64,
        });
        own.push(index);
    }
    Enumeration {
        array_lower,
        places,
        held,
    }
}
