//! Compares the library, and the program `list`, with a slow enumeration and
//! other ways of counting. Says what was compared, and stops at the first
//! difference. The argument `calls` or `sheets` leaves out the other, `gen_block` all but
//! the calls on lists of sizes, and `grids` all but those on grids.

mod answers;
mod bound_edges;
mod bounds_as_offset;
mod calls;
mod checkpoint_answers;
mod checkpoint_comparison;
mod checkpoint_enumeration;
mod checkpoint_library;
mod checks_by_hand;
mod comparison;
mod counting;
mod counts_by_hand;
mod enumeration;
mod extreme_sections;
mod faults;
mod fill_chains;
mod gen_block;
mod generator;
mod grids;
mod guarded_list;
mod lent;
mod library;
mod memory;
mod processor_list;
mod questions;
mod random_bounds;
mod random_checkpoints;
mod random_mappings;
mod random_sections;
mod random_transfers;
mod section_answers;
mod section_comparison;
mod section_enumeration;
mod section_library;
mod section_search;
mod sections_by_hand;
mod sheets;
mod small_bounds;
mod small_checkpoints;
mod small_mappings;
mod small_sections;
mod small_transfers;
mod special_bounds;
mod special_checkpoints;
mod special_numbers;
mod special_sections;
mod special_transfers;
mod transfer_answers;
mod transfer_comparison;
mod transfer_enumeration;
mod transfer_library;

use std::env;
use std::process::ExitCode;

use comparison::{Comparison, Difference};

/// Compares one kind of calls, and says in words which.
type Group = fn(&mut Comparison) -> Result<String, Difference>;

const CALLS: [Group; 40] = [
    checks_by_hand::compare_limits,
    checks_by_hand::compare_bounds,
    small_mappings::compare_countings,
    small_mappings::compare_arrays,
    small_mappings::compare_bounds,
    special_numbers::compare_combinations,
    special_numbers::compare_exchanges,
    special_bounds::compare_mappings,
    random_mappings::compare_fits,
    random_mappings::compare_mappings,
    bound_edges::compare_edges,
    bounds_as_offset::compare_mappings,
    counts_by_hand::compare_cases,
    sections_by_hand::compare_cases,
    small_sections::compare_searches,
    small_sections::compare_sections,
    small_sections::compare_bounds,
    special_sections::compare_combinations,
    special_sections::compare_exchanges,
    special_bounds::compare_sections,
    extreme_sections::compare_lone_elements,
    extreme_sections::compare_quotas,
    extreme_sections::compare_machines,
    random_sections::compare_short_chains,
    random_sections::compare_long_chains,
    random_sections::compare_repeating_chains,
    random_sections::compare_strided_chains,
    random_sections::compare_sections,
    small_transfers::compare_assignments,
    special_transfers::compare_combinations,
    special_transfers::compare_exchanges,
    random_transfers::compare_short_assignments,
    random_transfers::compare_long_assignments,
    small_checkpoints::compare_mappings,
    small_checkpoints::compare_moves,
    special_checkpoints::compare_combinations,
    special_checkpoints::compare_exchanges,
    special_checkpoints::compare_long_arrays,
    random_checkpoints::compare_short_arrays,
    random_checkpoints::compare_long_arrays,
];

fn main() -> ExitCode {
    match groups().and_then(compare_groups) {
        Ok(comparisons) => {
            println!("tests: {comparisons} comparisons, all equal");
            ExitCode::SUCCESS
        }
        Err(Difference(words)) => {
            eprintln!("tests: a difference: {words}");
            ExitCode::FAILURE
        }
    }
}

fn groups() -> Result<Vec<Group>, Difference> {
    let arguments: Vec<String> = env::args().skip(1).collect();
    match arguments.join(" ").as_str() {
        "" => Ok(calls().chain(sheets::GROUPS).collect()),
        "calls" => Ok(calls().collect()),
        "gen_block" => Ok(gen_block::GROUPS.to_vec()),
        "grids" => Ok(grids::GROUPS.to_vec()),
        "sheets" => Ok(sheets::GROUPS.to_vec()),
        other => Err(Difference(format!("there is no part {other:?}"))),
    }
}

fn calls() -> impl Iterator<Item = Group> {
    CALLS
        .into_iter()
        .chain(gen_block::GROUPS)
        .chain(grids::GROUPS)
}

fn compare_groups(groups: Vec<Group>) -> Result<u64, Difference> {
    let mut total = 0;
    for group in groups {
        let mut comparison = Comparison::default();
        let words = group(&mut comparison)?;
        println!("{words}: {} comparisons", comparison.comparisons);
        total += comparison.comparisons;
    }
    Ok(total)
}
