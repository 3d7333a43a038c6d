//! Sections, their steps and the tries of going on, straight from their
//! definitions.

use crate::counting::{course, gcd};
use crate::enumeration::{Array, Enumeration};
use crate::processor_list::{Entry, List};
use crate::section_library::Triplet;

/// How many elements an accepted section has.
pub fn count(triplet: &Triplet) -> u64 {
    let quotient = (triplet.upper - triplet.lower + triplet.step) / triplet.step;
    quotient.max(0) as u64
}

/// The declared index at a position below the count.
pub fn element(triplet: &Triplet, position: u64) -> i64 {
    triplet.lower + position as i64 * triplet.step
}

/// The cells from one position to the next, S.
pub fn distance(array: &Array, triplet: &Triplet) -> u64 {
    array.stride * triplet.step.unsigned_abs()
}

/// A step from one element of a processor to another. The column moves up in a
/// processor step, and down in a return step.
#[derive(Clone, Copy, Debug, PartialEq, Eq)]
pub struct Step {
    pub cells: u64,
    pub courses: u64,
    pub column: u64,
}

/// The steps of a section.
#[derive(Clone, Copy, Debug, PartialEq, Eq)]
pub enum Walk {
    NoStep,
    OneStep(Step),
    TwoSteps { onward: Step, back: Step },
}

/// The steps, by trying one multiple of the section's distance after another.
pub fn walk(array: &Array, triplet: &Triplet) -> Walk {
    if count(triplet) < 2 {
        return Walk::NoStep;
    }
    let (distance, course) = (distance(array, triplet), course(array));
    if gcd(distance, course) >= array.block {
        return Walk::OneStep(smallest(distance, |cells| whole_courses(cells, course)));
    }
    Walk::TwoSteps {
        onward: smallest(distance, |cells| moved_up(cells, course, array.block)),
        back: smallest(distance, |cells| moved_down(cells, course, array.block)),
    }
}

fn smallest(distance: u64, step: impl Fn(u64) -> Option<Step>) -> Step {
    (1..)
        .find_map(|multiple| step(multiple * distance))
        .expect("some multiple is such a step")
}

fn whole_courses(cells: u64, course: u64) -> Option<Step> {
    cells.is_multiple_of(course).then_some(Step {
        cells,
        courses: cells / course,
        column: 0,
    })
}

fn moved_up(cells: u64, course: u64, block: u64) -> Option<Step> {
    let column = cells % course;
    (1..block).contains(&column).then_some(Step {
        cells,
        courses: cells / course,
        column,
    })
}

fn moved_down(cells: u64, course: u64, block: u64) -> Option<Step> {
    let column = course - cells % course;
    (1..block).contains(&column).then_some(Step {
        cells,
        courses: cells / course + 1,
        column,
    })
}

/// An accepted section with its steps.
#[derive(Clone, Copy, Debug)]
pub struct Section {
    pub array: Array,
    pub triplet: Triplet,
    pub walk: Walk,
}

impl Section {
    pub fn new(array: Array, triplet: Triplet) -> Section {
        let walk = walk(&array, &triplet);
        Section {
            array,
            triplet,
            walk,
        }
    }

    pub fn count(&self) -> u64 {
        count(&self.triplet)
    }

    pub fn element(&self, position: u64) -> i64 {
        element(&self.triplet, position)
    }

    pub fn cell(&self, position: u64) -> u64 {
        self.array.cell(self.element(position))
    }

    pub fn owner(&self, position: u64) -> u64 {
        self.array.owner(self.element(position))
    }

    /// The elements that the processor owns, in rising position, where each
    /// element of the array has its place.
    pub fn list(&self, processor: u64, enumeration: &Enumeration) -> List {
        let entries = (0..self.count())
            .filter(|&position| self.owner(position) == processor)
            .map(|position| {
                let address = enumeration.place(self.element(position)).address;
                self.entry(position, address)
            });
        List {
            entries: entries.collect(),
            end: self.count(),
            is_whole: true,
        }
    }

    pub fn entry(&self, position: u64, address: u64) -> Entry {
        Entry {
            position,
            address: address as u32,
            tries: self.tries(position),
        }
    }

    /// The tries of going on from a position: the processor step is tried first,
    /// then the return step, and last their sum, which always fits.
    fn tries(&self, position: u64) -> u64 {
        let Walk::TwoSteps { onward, back } = self.walk else {
            return 1;
        };
        let column = self.cell(position) % self.array.block;
        let fits_up = |step: Step| column + step.column < self.array.block;
        let fits_down = |step: Step| column >= step.column;
        let (first, second) = if self.triplet.step > 0 {
            (fits_up(onward), fits_down(back))
        } else {
            (fits_down(onward), fits_up(back))
        };
        match (first, second) {
            (true, _) => 1,
            (false, true) => 2,
            (false, false) => 3,
        }
    }
}
