//! Compares what the program `list` prints with what the enumeration says.

mod damaged_sheets;
mod form;
mod long_inputs;
mod malformed_by_hand;
mod print;
mod program;
mod random_sheets;
mod sheet;

use crate::Group;

pub const GROUPS: [Group; 5] = [
    malformed_by_hand::compare_places,
    long_inputs::compare_inputs,
    long_inputs::compare_long_lists,
    random_sheets::compare_sheets,
    damaged_sheets::compare_sheets,
];
