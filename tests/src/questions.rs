//! The questions that a call asks of its numbers, in wide integers that no
//! number overflows. Each function gives the number of the first question
//! answered no, or 0 if all are answered yes.

use std::ops::Range;

use crate::calls::Calls;
use crate::library::Mapping;
use crate::section_library::{Fill, Triplet};
use crate::transfer_library::Transfer;

const LARGEST: i128 = 2_147_483_647;
pub const LARGEST_STRIDE: i64 = 4_096;

/// Questions 1 to 5, with 15 between the halves of 5.
pub fn of_mapping(m: &Mapping) -> i32 {
    match of_numbers(m) {
        0 => of_cells(m),
        refusal => refusal,
    }
}

/// Questions 1 to 4, the first half of 5, and 15.
fn of_numbers(m: &Mapping) -> i32 {
    let [cells, processors, block] = [m.cells, m.processors, m.block].map(i128::from);
    let [stride, offset, size] = [m.stride, m.offset, m.size].map(i128::from);
    let [array_lower, template_lower] = [m.array_lower, m.template_lower].map(i128::from);
    let last_index = array_lower + size - 1;
    let last_declared_cell = template_lower + cells - 1;
    let bounds_are_in_range = is_in_range(array_lower) && is_in_range(template_lower);
    first_no(&[
        (1, (1..=LARGEST).contains(&cells)),
        (2, (1..=1_024).contains(&processors)),
        (3, (1..=65_536).contains(&block)),
        (
            4,
            (1..=LARGEST_STRIDE.into()).contains(&stride) && is_in_range(offset),
        ),
        (5, (0..=LARGEST).contains(&size)),
        (
            15,
            bounds_are_in_range
                && (size < 1 || is_in_range(last_index))
                && is_in_range(last_declared_cell),
        ),
    ])
}

/// The second half of question 5, of numbers that pass the questions before it.
fn of_cells(m: &Mapping) -> i32 {
    let [stride, offset, template_lower] = [m.stride, m.offset, m.template_lower].map(i128::from);
    let cell = |index: i128| stride * index + offset - template_lower;
    let Range { start, end } = indices(m);
    let is_on_template = cell(start) >= 0 && cell(end - 1) < i128::from(m.cells);
    first_no(&[(5, m.size < 1 || is_on_template)])
}

/// Questions 6 and 7.
pub fn of_section(m: &Mapping, triplet: &Triplet) -> i32 {
    let [lower, upper, step] = [triplet.lower, triplet.upper, triplet.step].map(i128::from);
    if ![lower, upper, step].into_iter().all(is_in_range) || step == 0 {
        return 6;
    }
    let count = count(triplet);
    let last = lower + (count - 1) * step;
    let indices = indices(m);
    first_no(&[(
        7,
        count < 1 || indices.contains(&lower) && indices.contains(&last),
    )])
}

/// Question 8.
pub fn of_processor(m: &Mapping, processor: i64) -> i32 {
    first_no(&[(8, (0..m.processors).contains(&processor))])
}

/// Question 9 of an index.
pub fn of_index(m: &Mapping, index: i64) -> i32 {
    first_no(&[(9, indices(m).contains(&i128::from(index)))])
}

/// Question 9 of an address, where the processor holds so many elements.
pub fn of_address(elements: u64, address: i64) -> i32 {
    first_no(&[(9, (0..i128::from(elements)).contains(&i128::from(address)))])
}

/// Question 10, of a section and a processor that pass the questions before it.
fn of_place(fill: &Fill) -> i32 {
    let [lower, step, place] = [fill.triplet.lower, fill.triplet.step, fill.place].map(i128::from);
    let count = count(&fill.triplet);
    let owner = || fill.m.array().owner((lower + place * step) as i64);
    let is_owned = || (0..count).contains(&place) && owner() == fill.processor as u64;
    first_no(&[(10, place == count || is_owned())])
}

/// Question 11.
pub fn of_quota(quota: i64) -> i32 {
    first_no(&[(11, (3..=1_000_000).contains(&quota))])
}

/// Questions 1 to 7, with 15.
pub fn of_mapping_and_section(m: &Mapping, triplet: &Triplet) -> i32 {
    match of_mapping(m) {
        0 => of_section(m, triplet),
        refusal => refusal,
    }
}

/// Questions 1 to 8, with 15.
pub fn of_list(m: &Mapping, triplet: &Triplet, processor: i64) -> i32 {
    match of_mapping_and_section(m, triplet) {
        0 => of_processor(m, processor),
        refusal => refusal,
    }
}

/// Questions 1 to 8, with 15, then 10 and 11.
pub fn of_fill(fill: &Fill) -> i32 {
    match of_list(&fill.m, &fill.triplet, fill.processor) {
        0 => match of_place(fill) {
            0 => of_quota(fill.quota),
            refusal => refusal,
        },
        refusal => refusal,
    }
}

/// Questions 1 to 7 of the left, then of the right, each with 15; 8 of the sender, 8
/// of the receiver, and 12. Question 13 is left to who knows the entries.
pub fn of_transfer(transfer: &Transfer) -> i32 {
    let Transfer { left, right, .. } = transfer;
    match of_mapping_and_section(&left.m, &left.triplet) {
        0 => match of_mapping_and_section(&right.m, &right.triplet) {
            0 => of_ends(transfer),
            refusal => refusal,
        },
        refusal => refusal,
    }
}

/// Questions 8, 8 and 12, of sides that pass the questions before them.
fn of_ends(transfer: &Transfer) -> i32 {
    let Transfer { left, right, .. } = transfer;
    first_no(&[
        (8, (0..right.m.processors).contains(&transfer.sender)),
        (8, (0..left.m.processors).contains(&transfer.receiver)),
        (12, count(&left.triplet) == count(&right.triplet)),
    ])
}

/// Questions 1 to 5, with 15 and 16, and 13 of two lists of so many words.
pub fn of_copy(m: &impl Calls, words: [usize; 2]) -> i32 {
    match m.refusal() {
        0 => {
            let size = m.numbers().size as usize;
            first_no(&[(13, words.iter().all(|&words| words >= size))])
        }
        refusal => refusal,
    }
}

/// The declared indices, La to La + n - 1.
fn indices(m: &Mapping) -> Range<i128> {
    let [lower, size] = [m.array_lower, m.size].map(i128::from);
    lower..lower + size
}

fn is_in_range(number: i128) -> bool {
    (-LARGEST..=LARGEST).contains(&number)
}

/// The count of a section that passes question 6.
fn count(triplet: &Triplet) -> i128 {
    let [lower, upper, step] = [triplet.lower, triplet.upper, triplet.step].map(i128::from);
    ((upper - lower + step) / step).max(0)
}

pub fn first_no(answers: &[(i32, bool)]) -> i32 {
    match answers.iter().find(|(_, yes)| !yes) {
        Some((number, _)) => *number,
        None => 0,
    }
}
