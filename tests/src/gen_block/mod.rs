//! Compares the library, on templates that are dealt by a list of sizes, with an
//! enumeration of their cells.

pub mod answers;
mod by_hand;
pub mod enumeration;
pub mod faults;
mod large_lists;
pub mod library;
mod one_course;
pub mod questions;
mod random_checkpoints;
pub mod random_mappings;
mod random_sections;
mod random_transfers;
mod refusals_by_hand;
pub mod runs;
pub mod section_library;
pub mod sizes;
mod small_arrays;
mod small_checkpoints;
mod small_lists;
mod small_sections;
mod small_transfers;
pub mod special_lists;
mod special_transfers;
pub mod transfer_library;
mod transfers_by_hand;

use crate::Group;

pub const GROUPS: [Group; 28] = [
    by_hand::compare_arrays,
    by_hand::compare_sections,
    refusals_by_hand::compare_mappings,
    transfers_by_hand::compare_assignments,
    small_arrays::compare_runs,
    small_arrays::compare_arrays,
    small_sections::compare_runs,
    small_sections::compare_sections,
    special_lists::compare_elements,
    special_lists::compare_sections,
    special_lists::compare_checkpoints,
    large_lists::compare_mappings,
    large_lists::compare_quotas,
    one_course::compare_mappings,
    random_mappings::compare_mappings,
    random_sections::compare_short_chains,
    random_sections::compare_long_chains,
    random_sections::compare_sections,
    small_transfers::compare_assignments,
    small_transfers::compare_whole_arrays,
    special_transfers::compare_combinations,
    special_transfers::compare_lists,
    random_transfers::compare_short_assignments,
    random_transfers::compare_long_assignments,
    small_checkpoints::compare_arrays,
    small_checkpoints::compare_moves,
    random_checkpoints::compare_short_arrays,
    random_checkpoints::compare_long_arrays,
];
