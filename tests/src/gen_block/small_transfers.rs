//! Assignments between small arrays of which one or both are dealt by sizes, all pairs of
//! a sender and a receiver.

use crate::comparison::{Comparison, Difference};
use crate::gen_block::enumeration::Dealt;
use crate::gen_block::sizes::Sizes;
use crate::gen_block::small_lists::{all, sum};
use crate::gen_block::transfer_library::{Side, Transfer};
use crate::library::Mapping;
use crate::section_library::Triplet;
use crate::small_bounds;
use crate::small_transfers::{compare_assignment, SECTIONS, SIZE};
use crate::transfer_enumeration::Half;
use crate::transfer_library;

/// Processors and cells of a block.
const MACHINES: [[i64; 2]; 3] = [[1, 2], [2, 3], [3, 1]];
/// Stride and first cell.
const ALIGNMENTS: [[i64; 2]; 3] = [[1, 0], [1, 3], [3, 1]];

/// Numbers that say GEN_BLOCK, some of which seem to be 0 once bits are lost.
const GEN_BLOCK: [i64; 6] = [1, 2, -1, 1 << 32, i64::MIN, i64::MAX];

/// Lists of sizes for a template: with 0 first, last and between, and sums above it.
fn lists(cells: i32) -> [Vec<i32>; 9] {
    [
        vec![cells],
        vec![0, cells],
        vec![cells - 1, 2],
        vec![cells / 2, 0, cells],
        vec![1, cells - 1, 0],
        vec![4, 3, cells - 7],
        vec![0, cells / 3, 0, cells],
        vec![cells / 4, cells / 4, cells / 4, cells],
        vec![2, i32::MAX, i32::MAX, i32::MAX],
    ]
}

pub fn compare_assignments(comparison: &mut Comparison) -> Result<String, Difference> {
    let sides: Vec<(Side, Half)> = sides().into_iter().map(with_half).collect();
    let mut assignments = 0;
    for (left, to) in &sides {
        for (right, from) in &sides {
            if !left.has_sizes() && !right.has_sizes() {
                continue;
            }
            let transfer = |sender, receiver| Transfer {
                left: left.clone(),
                right: right.clone(),
                sender,
                receiver,
            };
            compare_assignment(comparison, to, from, transfer)?;
            assignments += 1;
        }
    }
    Ok(format!(
        "{assignments} small assignments between dealings, every pair"
    ))
}

/// Whole arrays under all lists of up to 3 sizes from 0 to 3, to each from each, upwards on
/// the left and downwards on the right.
pub fn compare_whole_arrays(comparison: &mut Comparison) -> Result<String, Difference> {
    let is_small = |sizes: &Vec<i32>| sizes.len() < 4 && sizes.iter().all(|&size| size < 4);
    let lists: Vec<Vec<i32>> = all().into_iter().filter(is_small).collect();
    let mut assignments = 0;
    for left in &lists {
        for right in &lists {
            let size = sum(left).min(sum(right));
            if size == 0 {
                continue;
            }
            let left = whole_side(left, size, [0, size - 1, 1]);
            let right = whole_side(right, size, [size - 1, 0, -1]);
            let [(left, to), (right, from)] = [left, right].map(with_half);
            let transfer = |sender, receiver| Transfer {
                left: left.clone(),
                right: right.clone(),
                sender,
                receiver,
            };
            compare_assignment(comparison, &to, &from, transfer)?;
            assignments += 1;
        }
    }
    Ok(format!("{assignments} whole arrays by sizes, every pair"))
}

/// A dense array on the first cells of its template.
fn whole_side(sizes: &[i32], size: i64, section: [i64; 3]) -> Side {
    Side {
        m: Mapping::of([sum(sizes), sizes.len() as i64, 0, 1, 0, size, 0, 0]),
        dealing: 1,
        sizes: Sizes::of(sizes),
        triplet: Triplet::of(section),
    }
}

/// Each side has the next pair of bounds, and what its dealing does not look at is at
/// fault.
fn sides() -> Vec<Side> {
    let mut bounds = small_bounds::in_turn();
    let mut dealings = GEN_BLOCK.into_iter().cycle();
    let mut sides = Vec::new();
    for alignment in ALIGNMENTS {
        for section in SECTIONS {
            for machine in MACHINES {
                let bounds = bounds.next().expect("they go round");
                sides.push(cyclic_side(machine, alignment, section, bounds));
            }
            for sizes in lists(cells(alignment) as i32) {
                let bounds = bounds.next().expect("they go round");
                let mut side = cyclic_side([sizes.len() as i64, 0], alignment, section, bounds);
                side.dealing = dealings.next().expect("they go round");
                side.sizes = Sizes::of(&sizes);
                sides.push(side);
            }
        }
    }
    sides
}

/// The template ends with the last element.
fn cells([stride, first_cell]: [i64; 2]) -> i64 {
    stride * (SIZE - 1) + first_cell + 1
}

fn cyclic_side(
    [processors, block]: [i64; 2],
    [stride, first_cell]: [i64; 2],
    [lower, upper, step]: [i64; 3],
    [array_lower, template_lower]: [i64; 2],
) -> Side {
    let m = Mapping {
        cells: cells([stride, first_cell]),
        processors,
        block,
        stride,
        offset: first_cell + template_lower - stride * array_lower,
        size: SIZE,
        array_lower,
        template_lower,
    };
    Side {
        m,
        dealing: 0,
        sizes: Sizes::of(&[-1]),
        triplet: Triplet {
            lower: lower + array_lower,
            upper: upper + array_lower,
            step,
        },
    }
}

fn with_half(side: Side) -> (Side, Half) {
    let half = if side.has_sizes() {
        let dealt = Dealt::of(&side.gen_block());
        Half::new(dealt, side.m.processors, side.triplet)
    } else {
        Half::of_small(&transfer_library::Side {
            m: side.m,
            triplet: side.triplet,
        })
    };
    (side, half)
}
