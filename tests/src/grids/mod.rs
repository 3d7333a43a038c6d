//! Compares the library, on grids of processors, with an enumeration of their elements.

mod answers;
mod by_hand;
mod comparison;
mod enumeration;
mod faults;
mod library;
mod one_dimension;
mod products;
mod question_order;
mod questions;
mod random_grids;
mod rank_one;
mod small_dimensions;
mod small_grids;

use crate::Group;

pub const GROUPS: [Group; 18] = [
    by_hand::compare_elements,
    by_hand::compare_lists,
    by_hand::compare_fills,
    by_hand::compare_refusals,
    small_grids::compare_answers,
    small_grids::compare_elements,
    small_grids::compare_sections,
    small_grids::compare_fills,
    question_order::compare_combinations,
    question_order::compare_lists,
    question_order::compare_dealings,
    products::compare_limits,
    products::compare_combinations,
    rank_one::compare_sections,
    rank_one::compare_combinations,
    random_grids::compare_short_chains,
    random_grids::compare_long_chains,
    random_grids::compare_sections,
];
