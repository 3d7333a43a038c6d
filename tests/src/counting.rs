//! How many of an array's first elements a processor holds, in three ways:
//! element by element, course by course, and by the period of the owners.
//! One of them is always cheap: there are at most 2^31 / pk courses, and the
//! period is at most pk.

use crate::enumeration::{Array, Place};

#[derive(Clone, Copy, Debug)]
pub enum Way {
    Elements,
    Courses,
    Period,
}

pub const WAYS: [Way; 3] = [Way::Elements, Way::Courses, Way::Period];

/// An array and one way to count its elements.
pub struct Counting {
    pub array: Array,
    pub way: Way,
    /// The owners over one period, for that way alone.
    owners: Vec<u16>,
}

impl Counting {
    pub fn new(array: Array, way: Way) -> Counting {
        let owners = match way {
            Way::Period => owners_of_period(&array),
            Way::Elements | Way::Courses => Vec::new(),
        };
        Counting { array, way, owners }
    }

    pub fn cheapest(array: Array) -> Counting {
        let cheapest = WAYS.into_iter().min_by_key(|&way| cost(&array, way));
        Counting::new(array, cheapest.expect("there are three ways"))
    }

    /// How many elements of index below `end` the processor holds.
    pub fn below(&self, end: i64, processor: u64) -> u64 {
        match self.way {
            Way::Elements => count_elements(&self.array, end, processor),
            Way::Courses => count_courses(&self.array, end, processor),
            Way::Period => self.count_periods(end, processor),
        }
    }

    pub fn held(&self, processor: u64) -> u64 {
        self.below(self.array.indices().end, processor)
    }

    pub fn place(&self, index: i64) -> Place {
        let processor = self.array.owner(index);
        let address = self.below(index, processor);
        Place { processor, address }
    }

    /// The element at an address below the processor's number of elements: the
    /// first one that makes the count exceed the address.
    pub fn element(&self, place: Place) -> i64 {
        let indices = self.array.indices();
        let (mut low, mut high) = (indices.start, indices.end - 1);
        while low < high {
            let middle = low + (high - low) / 2;
            if self.below(middle + 1, place.processor) > place.address {
                high = middle;
            } else {
                low = middle + 1;
            }
        }
        low
    }

    fn count_periods(&self, end: i64, processor: u64) -> u64 {
        let period = self.owners.len() as u64;
        let elements = (end - self.array.array_lower) as u64;
        let rest = (elements % period) as usize;
        let in_rest = count_equal(&self.owners[..rest], processor);
        match elements / period {
            0 => in_rest,
            whole => whole * count_equal(&self.owners, processor) + in_rest,
        }
    }
}

fn cost(array: &Array, way: Way) -> u64 {
    match way {
        Way::Elements => array.size,
        Way::Courses => array.stride * array.size / course(array) + 1,
        Way::Period => period(array),
    }
}

/// The cells of a course, pk.
pub fn course(array: &Array) -> u64 {
    array.processors * array.block
}

fn count_elements(array: &Array, end: i64, processor: u64) -> u64 {
    let owned = |&index: &i64| array.owner(index) == processor;
    (array.array_lower..end).filter(owned).count() as u64
}

/// In one course a processor has one run of cells, so its elements there are
/// those below the run's end less those below its start.
fn count_courses(array: &Array, end: i64, processor: u64) -> u64 {
    let course = course(array);
    let first = array.cell(array.array_lower) / course;
    let last = array.cell(end) / course;
    let start_in_course = processor * array.block;
    (first..=last)
        .map(|number| number * course + start_in_course)
        .map(|start| {
            elements_below(array, end, start + array.block) - elements_below(array, end, start)
        })
        .sum()
}

/// How many of the elements of index below `end` sit on cells below `cell`: j does
/// if a·j is below the declared cell less b.
fn elements_below(array: &Array, end: i64, cell: u64) -> u64 {
    let bound = cell as i64 + array.template_lower - array.offset;
    let first_past = -(-bound).div_euclid(array.stride as i64);
    (first_past.clamp(array.array_lower, end) - array.array_lower) as u64
}

/// After this many elements the cells have moved by whole courses, and the
/// owners repeat.
fn period(array: &Array) -> u64 {
    course(array) / gcd(array.stride, course(array))
}

fn owners_of_period(array: &Array) -> Vec<u16> {
    (array.array_lower..)
        .take(period(array) as usize)
        .map(|index| array.owner(index) as u16)
        .collect()
}

fn count_equal(owners: &[u16], processor: u64) -> u64 {
    let equal = |&&owner: &&u16| u64::from(owner) == processor;
    owners.iter().filter(equal).count() as u64
}

pub fn gcd(a: u64, b: u64) -> u64 {
    if b == 0 {
        a
    } else {
        gcd(b, a % b)
    }
}
