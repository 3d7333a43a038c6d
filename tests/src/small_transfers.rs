//! Assignments between small arrays, all pairs of a sender and a receiver: the
//! entries with lists that are too short, exact and longer, and each position in
//! one pair, once.

use crate::calls::CallTransfer;
use crate::comparison::{Comparison, Difference, Outcome};
use crate::small_bounds;
use crate::transfer_comparison::Transferring;
use crate::transfer_enumeration::{pair, Entry, Half};
use crate::transfer_library::{Side, Transfer};

pub const SIZE: i64 = 13;
const PROCESSORS: [i64; 4] = [1, 2, 3, 5];
const BLOCKS: [i64; 3] = [1, 2, 4];
/// Stride and first cell.
const ALIGNMENTS: [(i64, i64); 4] = [(1, 0), (1, 3), (2, 1), (5, 2)];

/// Sections of 13, 7, 5, 1 and no elements, upwards and downwards, of an array with
/// lower bound 0.
pub const SECTIONS: [[i64; 3]; 13] = [
    [0, 12, 1],
    [12, 0, -1],
    [0, 12, 2],
    [12, 0, -2],
    [9, 3, -1],
    [0, 13, 3],
    [12, 0, -3],
    [2, 6, 1],
    [10, 1, -2],
    [7, 7, 5],
    [0, -4, -9],
    [5, 1, 3],
    [1, 5, -3],
];

pub fn compare_assignments(comparison: &mut Comparison) -> Result<String, Difference> {
    let mut assignments = 0;
    for left in sides() {
        for right in sides() {
            let halves = [&left, &right].map(Half::of_small);
            let transfer = |sender, receiver| Transfer {
                left,
                right,
                sender,
                receiver,
            };
            compare_assignment(comparison, &halves[0], &halves[1], transfer)?;
            assignments += 1;
        }
    }
    Ok(format!("{assignments} small assignments, every pair"))
}

/// Each side has the next pair of bounds.
fn sides() -> Vec<Side> {
    let mut bounds = small_bounds::in_turn();
    let mut sides = Vec::new();
    for p in PROCESSORS {
        for k in BLOCKS {
            for (a, first_cell) in ALIGNMENTS {
                for ([l, h, s], [la, lt]) in SECTIONS.into_iter().zip(&mut bounds) {
                    let cells = a * (SIZE - 1) + first_cell + 1;
                    let b = first_cell + lt - a * la;
                    sides.push(Side::of([
                        cells,
                        p,
                        k,
                        a,
                        b,
                        SIZE,
                        la,
                        lt,
                        l + la,
                        h + la,
                        s,
                    ]));
                }
            }
        }
    }
    sides
}

/// All pairs of an assignment to one side from another, and what lies beside them.
pub fn compare_assignment<T: CallTransfer>(
    comparison: &mut Comparison,
    to: &Half,
    from: &Half,
    transfer: impl Fn(i64, i64) -> T,
) -> Outcome {
    let [senders, receivers] = [from, to].map(|half| half.processors() as i64);
    for (sender, receiver) in [(-1, 0), (senders, 0), (0, -1), (0, receivers)] {
        comparison.transfers(
            &transfer(sender, receiver),
            [1; 3],
            &Transferring::refused(8),
        )?;
    }
    if to.count() != from.count() {
        comparison.transfers(&transfer(0, 0), [0; 3], &Transferring::refused(12))?;
        return Ok(());
    }
    let mut times = vec![0; to.count() as usize];
    for sender in 0..senders {
        for receiver in 0..receivers {
            let entries = pair(to, from, sender as u64, receiver as u64);
            let found = compare_pair(comparison, &transfer(sender, receiver), &entries)?;
            found.iter().for_each(|entry| times[entry[0] as usize] += 1);
        }
    }
    comparison.same(times.iter().all(|&once| once == 1), true, || {
        format!(
            "how often each position stands in a pair, {times:?}, {:?}",
            transfer(0, 0)
        )
    })
}

/// With each list too short by one, exact lists and longer ones.
fn compare_pair(
    comparison: &mut Comparison,
    transfer: &impl CallTransfer,
    entries: &[Entry],
) -> Result<Vec<Entry>, Difference> {
    let n = entries.len();
    if n > 0 {
        for rooms in [[n - 1, n, n], [n, n - 1, n + 2], [n, n, n - 1], [0; 3]] {
            comparison.transfers(transfer, rooms, &Transferring::of(entries, rooms))?;
        }
    }
    let longer = [n + 2, n + 1, n + 4];
    comparison.transfers(transfer, longer, &Transferring::of(entries, longer))?;
    comparison.transfers(transfer, [n; 3], &Transferring::of(entries, [n; 3]))
}
