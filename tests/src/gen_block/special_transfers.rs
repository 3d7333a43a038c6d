//! Transfers between dealings with faults on both sides at once: of block and sizes only
//! the one that concerns the dealing is looked at, and the refusal must name the first.

use crate::comparison::{Comparison, Difference, Outcome};
use crate::gen_block::answers;
use crate::gen_block::sizes::Sizes;
use crate::gen_block::special_lists::whole_lists;
use crate::gen_block::transfer_library::{Side, Transfer};
use crate::library::Mapping;
use crate::questions::LARGEST_STRIDE;
use crate::section_library::Triplet;
use crate::special_numbers::combine;

const LARGEST: i64 = 2_147_483_647;

/// A lawful number and one at fault: T, p, k, a, n, La and s of the mapping 96 3 4 5 2 19
/// 0 0 and the section 18:0:-3 of 7 elements; before them the dealing.
const LEFT: [&[i64]; 8] = [
    &[0, 1],
    &[96, 0],
    &[3, 1_025],
    &[4, 0],
    &[5, LARGEST_STRIDE + 1],
    &[19, 20],
    &[0, LARGEST - 17],
    &[-3, 0],
];
/// The same for the right side: 40 3 3 1 8 36 -5 -1, and -2:16:3 of 7 elements.
const RIGHT: [&[i64]; 8] = [
    &[0, -1],
    &[40, LARGEST + 1],
    &[3, 0],
    &[3, 65_537],
    &[1, 0],
    &[36, -1],
    &[-5, -LARGEST - 1],
    &[3, 0],
];
const ENDS: [&[i64]; 2] = [&[1, 3], &[2, -1]];

/// Lists for the left side and the right: both lawful, one at fault, and both.
const LISTS: [[&[i32]; 2]; 4] = [
    [&[0, 57, 39], &[17, 0, 23]],
    [&[0, 57, 38], &[17, 0, 23]],
    [&[0, 57, 39], &[17, -1, 24]],
    [&[0, 57], &[17, 0, 23, 0]],
];

const ROOMS: [usize; 3] = [3, 4, 3];

pub fn compare_combinations(comparison: &mut Comparison) -> Result<String, Difference> {
    let [d, t, p, k, a, n, la, s] = LEFT;
    let [e, u, q, j, c, m, lb, r] = RIGHT;
    let [x, y] = ENDS;
    for lists in LISTS {
        let [left, right] = lists.map(Sizes::of);
        let faults = [d, t, p, k, a, n, la, s, e, u, q, j, c, m, lb, r, x, y];
        combine(comparison, faults, |comparison, numbers| {
            let transfer = transfer(&left, &right, numbers);
            compare_transfer(comparison, &transfer, ROOMS)
        })?;
    }
    Ok("transfers between dealings with faults on both sides, in all combinations".to_string())
}

/// Each list that is lawful or at fault, on either side, with each dealing that has one
/// bit, and with none; the other side is as lawful as it can be.
pub fn compare_lists(comparison: &mut Comparison) -> Result<String, Difference> {
    let lawful = LISTS[0].map(Sizes::of);
    let [left, right] = [LEFT, RIGHT].map(|side| side.map(|choices| choices[0]));
    for sizes in whole_lists() {
        for bit in 0..=64 {
            let dealing = if bit == 64 { 0 } else { 1_i64 << bit };
            let mut numbers = [0; 18];
            numbers[..8].copy_from_slice(&left);
            numbers[8..16].copy_from_slice(&right);
            numbers[16..].copy_from_slice(&[1, 2]);
            for (side, lists) in [(0, [&sizes, &lawful[1]]), (8, [&lawful[0], &sizes])] {
                let mut numbers = numbers;
                numbers[side] = dealing;
                let transfer = transfer(lists[0], lists[1], numbers);
                compare_transfer(comparison, &transfer, ROOMS)?;
            }
        }
    }
    Ok("transfers between dealings, with lists of sizes on either side".to_string())
}

fn compare_transfer(
    comparison: &mut Comparison,
    transfer: &Transfer,
    rooms: [usize; 3],
) -> Outcome {
    let expected = answers::transfers(transfer, rooms);
    comparison.transfers(transfer, rooms, &expected)?;
    Ok(())
}

fn transfer(left: &Sizes, right: &Sizes, numbers: [i64; 18]) -> Transfer {
    let [d, t, p, k, a, n, la, s, e, u, q, j, c, m, lb, r, sender, receiver] = numbers;
    Transfer {
        left: Side {
            m: Mapping::of([t, p, k, a, 2, n, la, 0]),
            dealing: d,
            sizes: left.clone(),
            triplet: Triplet::of([18, 0, s]),
        },
        right: Side {
            m: Mapping::of([u, q, j, c, 8, m, lb, -1]),
            dealing: e,
            sizes: right.clone(),
            triplet: Triplet::of([-2, 16, r]),
        },
        sender,
        receiver,
    }
}
