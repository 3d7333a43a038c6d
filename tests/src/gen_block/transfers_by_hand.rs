//! Assignments between a cyclic array and one that is dealt by sizes, both ways, found by
//! hand; and what a side's dealing lets a call look at.

use crate::comparison::{Comparison, Difference};
use crate::gen_block::sizes::Sizes;
use crate::gen_block::transfer_library::{Side, Transfer};
use crate::library::Mapping;
use crate::section_library::Triplet;
use crate::transfer_comparison::Transferring;
use crate::transfer_enumeration::Entry;

const ROOMS: [usize; 3] = [4, 3, 5];

/// Position, sender's address and receiver's address of the entries from one processor to
/// another, in by_sizes(0:9) = cyclic(9:0:-1). By sizes of 3, 0, 5 and 4, and in blocks of
/// 3 on two processors, each on ten cells.
const TO_SIZES: [([i64; 2], &[Entry]); 8] = [
    ([0, 0], &[[1, 5, 1], [2, 4, 2]]),
    ([0, 1], &[]),
    ([0, 2], &[[3, 3, 0], [7, 2, 4]]),
    ([0, 3], &[[8, 1, 0], [9, 0, 1]]),
    ([1, 0], &[[0, 3, 0]]),
    ([1, 1], &[]),
    ([1, 2], &[[4, 2, 1], [5, 1, 2], [6, 0, 3]]),
    ([1, 3], &[]),
];

/// The same in cyclic(0:9) = by_sizes(9:0:-1).
const TO_BLOCKS: [([i64; 2], &[Entry]); 8] = [
    ([0, 0], &[[7, 2, 4], [8, 1, 5]]),
    ([0, 1], &[[9, 0, 3]]),
    ([1, 0], &[]),
    ([1, 1], &[]),
    ([2, 0], &[[2, 4, 2], [6, 0, 3]]),
    ([2, 1], &[[3, 3, 0], [4, 2, 1], [5, 1, 2]]),
    ([3, 0], &[[0, 1, 0], [1, 0, 1]]),
    ([3, 1], &[]),
];

/// Dealing, block and sizes of both sides, sender and receiver, and what is met.
type Looked = ([(i64, i64, &'static [i32]); 2], [i64; 2], i32);

const GOOD: &[i32] = &[3, 0, 5, 4];
const SHORT: &[i32] = &[3, 0, 5, 1];

const LOOKED_AT: [Looked; 17] = [
    ([(1, 0, GOOD), (0, 3, SHORT)], [1, 3], 0),
    ([(-1, 65_537, GOOD), (0, 3, &[])], [1, 3], 0),
    ([(1 << 32, i64::MIN, GOOD), (0, 3, &[i32::MIN])], [1, 3], 0),
    ([(i64::MIN, 0, GOOD), (i64::MAX, 0, GOOD)], [2, 3], 0),
    ([(0, 10, SHORT), (0, 3, SHORT)], [1, 1], 0),
    ([(0, 0, GOOD), (1, 0, GOOD)], [1, 1], 3),
    ([(0, 3, GOOD), (0, 65_537, GOOD)], [1, 1], 3),
    ([(1, 3, SHORT), (1, 3, GOOD)], [1, 1], 16),
    ([(1, 3, GOOD), (1, 3, SHORT)], [1, 1], 16),
    ([(0, 0, SHORT), (1, 0, SHORT)], [1, 1], 3),
    ([(1, 0, SHORT), (0, 0, SHORT)], [1, 1], 16),
    ([(1, 0, &[3, 0, 7]), (0, 3, SHORT)], [1, 1], 16),
    ([(0, 3, SHORT), (1, 0, &[3, 0, 5, 4, 0])], [1, 1], 16),
    ([(0, 3, SHORT), (1, 0, &[11, 0, -1, 0])], [1, 1], 16),
    ([(1, 0, GOOD), (0, 3, SHORT)], [4, 0], 8),
    ([(1, 0, GOOD), (0, 3, SHORT)], [1, 4], 8),
    ([(1, 0, GOOD), (1, 0, GOOD)], [-1, 4], 8),
];

pub fn compare_assignments(comparison: &mut Comparison) -> Result<String, Difference> {
    let up = |dealing| side(dealing, [0, 9, 1]);
    let down = |dealing| side(dealing, [9, 0, -1]);
    for ([sender, receiver], entries) in TO_SIZES {
        let transfer = Transfer {
            left: up((1, 0, GOOD)),
            right: down((0, 3, SHORT)),
            sender,
            receiver,
        };
        comparison.transfers(&transfer, ROOMS, &Transferring::of(entries, ROOMS))?;
    }
    for ([sender, receiver], entries) in TO_BLOCKS {
        let transfer = Transfer {
            left: up((0, 3, SHORT)),
            right: down((1, 0, GOOD)),
            sender,
            receiver,
        };
        comparison.transfers(&transfer, ROOMS, &Transferring::of(entries, ROOMS))?;
    }
    for ([left, right], [sender, receiver], refusal) in LOOKED_AT {
        let transfer = Transfer {
            left: up(left),
            right: down(right),
            sender,
            receiver,
        };
        let expected = match refusal {
            0 => Transferring::of(&[], ROOMS),
            refusal => Transferring::refused(refusal),
        };
        comparison.transfers(&transfer, ROOMS, &expected)?;
    }
    Ok("assignments between dealings, by hand".to_string())
}

/// A section of ten elements on four processors, or in blocks on two.
fn side((dealing, block, sizes): (i64, i64, &[i32]), section: [i64; 3]) -> Side {
    let processors = if dealing == 0 { 2 } else { 4 };
    Side {
        m: Mapping::of([10, processors, block, 1, 0, 10, 0, 0]),
        dealing,
        sizes: Sizes::of(sizes),
        triplet: Triplet::of(section),
    }
}
