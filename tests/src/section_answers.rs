//! The answers that the library is to give for sections: how they are made from
//! steps, lists and refusals, and for any numbers at all by the questions and
//! the search.

use crate::library::Mapping;
use crate::processor_list::{self, Entry};
use crate::questions;
use crate::section_comparison::Filling;
use crate::section_enumeration::{Section, Walk};
use crate::section_library::{Fill, Filled, Placed, Steps, Triplet};
use crate::section_search;

impl Steps {
    pub fn of(section: &Section) -> Steps {
        let mut steps = Steps {
            count: section.count() as i64,
            ..Steps::refused(0)
        };
        if let Walk::OneStep(step) | Walk::TwoSteps { onward: step, .. } = section.walk {
            steps.steps = 1;
            steps.cells = step.cells as i64;
            steps.courses = step.courses as i64;
            steps.column = step.column as i64;
        }
        if let Walk::TwoSteps { back, .. } = section.walk {
            steps.steps = 2;
            steps.return_cells = back.cells as i64;
            steps.return_courses = back.courses as i64;
            steps.return_column = -(back.column as i64);
        }
        steps
    }

    pub fn refused(refusal: i32) -> Steps {
        Steps {
            refusal: i64::from(refusal),
            count: 0,
            steps: 0,
            cells: 0,
            courses: 0,
            column: 0,
            return_cells: 0,
            return_courses: 0,
            return_column: 0,
        }
    }
}

impl Placed {
    pub fn at(place: u64) -> Placed {
        Placed {
            refusal: 0,
            place: place as i32,
        }
    }

    pub fn refused(refusal: i32) -> Placed {
        Placed { refusal, place: 0 }
    }
}

impl Filling {
    /// These entries are written, and the next place follows.
    pub fn of(entries: &[Entry], place: u64) -> Filling {
        Filling {
            answer: Filled {
                refusal: 0,
                entries: entries.len() as i32,
                tries: processor_list::tries(entries) as i32,
                place: place as i32,
            },
            addresses: processor_list::addresses(entries),
        }
    }

    pub fn refused(refusal: i32) -> Filling {
        Filling {
            answer: Filled {
                refusal,
                entries: 0,
                tries: 0,
                place: 0,
            },
            addresses: Vec::new(),
        }
    }
}

pub fn section_steps(m: &Mapping, triplet: &Triplet) -> Steps {
    match questions::of_mapping_and_section(m, triplet) {
        0 => Steps::of(&section_search::section(m.array(), *triplet)),
        refusal => Steps::refused(refusal),
    }
}

pub fn first_place(m: &Mapping, triplet: &Triplet, processor: i64) -> Placed {
    match questions::of_list(m, triplet, processor) {
        0 => {
            let section = section_search::section(m.array(), *triplet);
            Placed::at(section_search::place(&section, processor as u64, 0))
        }
        refusal => Placed::refused(refusal),
    }
}

/// What a fill does with a list of so many entries.
pub fn fill(fill: &Fill, room: usize) -> Filling {
    match questions::of_fill(fill) {
        0 => accepted_fill(fill, room),
        refusal => Filling::refused(refusal),
    }
}

fn accepted_fill(fill: &Fill, room: usize) -> Filling {
    let section = section_search::section(fill.m.array(), fill.triplet);
    let (processor, place) = (fill.processor as u64, fill.place as u64);
    let list = section_search::list(&section, processor, place, room);
    let entries = list.taken_next(0, fill.quota as u64, room);
    Filling::of(entries, list.place_after(entries.len()))
}
