//! Calls the library on sections and compares answers and lists with the
//! expected ones.

use std::ops::Range;

use crate::calls::{CallFill, Calls};
use crate::comparison::{Comparison, Difference, Outcome};
use crate::memory::Memory;
use crate::section_library::{Filled, Placed, Steps, Triplet};

/// What a fill is to answer, and the addresses it is to write.
pub struct Filling {
    pub answer: Filled,
    pub addresses: Vec<u32>,
}

impl Comparison {
    pub fn section_steps(&mut self, m: &impl Calls, triplet: &Triplet, expected: Steps) -> Outcome {
        let answer = m.section_steps(triplet);
        self.same(answer, expected, || format!("steps of {triplet:?}, {m:?}"))
    }

    pub fn first_place(
        &mut self,
        m: &impl Calls,
        triplet: &Triplet,
        processor: i64,
        expected: Placed,
    ) -> Outcome {
        let answer = m.first_place(triplet, processor);
        self.same(answer, expected, || {
            format!("first place of processor {processor}, {triplet:?}, {m:?}")
        })
    }

    /// Compares the answer, and every byte of the memory that the list is a part
    /// of. Gives the answer.
    pub fn fill(
        &mut self,
        fill: &impl CallFill,
        memory: &mut Memory,
        list: Range<usize>,
        expected: &Filling,
    ) -> Result<Filled, Difference> {
        let mut expected_memory = memory.clone();
        expected_memory.write(list.start, &expected.addresses);
        let answer = fill.fill(memory.lend(list.clone()));
        self.same(answer, expected.answer, || {
            format!("{fill:?} with a list of {} bytes", list.len())
        })?;
        self.same(memory.first_difference(&expected_memory), None, || {
            format!("first wrong byte of the memory, with the list at {list:?}, {fill:?}")
        })?;
        Ok(answer)
    }

    pub fn fill_nothing(&mut self, fill: &impl CallFill, expected: Filled) -> Outcome {
        let answer = fill.fill_nothing();
        self.same(answer, expected, || format!("{fill:?} without a list"))
    }
}
