//! Calls the library, compares its answers with the expected ones, and counts them.

use std::fmt::Debug;

use crate::calls::Calls;
use crate::library::{Counted, Found, Owned};

/// The first answer that is not the expected one, in words.
pub struct Difference(pub String);

pub type Outcome = Result<(), Difference>;

#[derive(Default)]
pub struct Comparison {
    pub comparisons: u64,
}

impl Comparison {
    pub fn ownership(&mut self, m: &impl Calls, index: i64, expected: Owned) -> Outcome {
        let answer = m.ownership(index);
        self.same(answer, expected, || {
            format!("ownership of element {index}, {m:?}")
        })
    }

    pub fn going_back(
        &mut self,
        m: &impl Calls,
        processor: i64,
        address: i64,
        expected: Found,
    ) -> Outcome {
        let answer = m.going_back(processor, address);
        self.same(answer, expected, || {
            format!("going back from processor {processor}, address {address}, {m:?}")
        })
    }

    pub fn local_count(&mut self, m: &impl Calls, processor: i64, expected: Counted) -> Outcome {
        let answer = m.local_count(processor);
        self.same(answer, expected, || {
            format!("local count of processor {processor}, {m:?}")
        })
    }

    pub fn same<A: PartialEq + Debug>(
        &mut self,
        answer: A,
        expected: A,
        question: impl FnOnce() -> String,
    ) -> Outcome {
        self.comparisons += 1;
        if answer == expected {
            return Ok(());
        }
        Err(Difference(format!(
            "{}: expected {expected:?}, the answer is {answer:?}",
            question()
        )))
    }
}
