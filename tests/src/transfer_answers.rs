//! The answers that the library is to give for transfers: how they are made from
//! entries and refusals, and for any numbers at all by the questions and the
//! enumeration.

use crate::questions;
use crate::transfer_comparison::Transferring;
use crate::transfer_enumeration::{pair, Entry, Half};
use crate::transfer_library::{Transfer, Transferred};

impl Transferring {
    /// These entries are written, if each list has room for them: question 13.
    pub fn of(entries: &[Entry], rooms: [usize; 3]) -> Transferring {
        if rooms.iter().any(|&room| room < entries.len()) {
            return Transferring::needing(entries.len());
        }
        Transferring {
            answer: Transferred {
                refusal: 0,
                entries: entries.len() as i32,
                needed: 0,
            },
            entries: entries.to_vec(),
        }
    }

    fn needing(entries: usize) -> Transferring {
        let mut needing = Transferring::refused(13);
        needing.answer.needed = entries as i32;
        needing
    }

    pub fn refused(refusal: i32) -> Transferring {
        Transferring {
            answer: Transferred {
                refusal,
                entries: 0,
                needed: 0,
            },
            entries: Vec::new(),
        }
    }
}

/// What a transfer does with lists of so many entries.
pub fn transfers(transfer: &Transfer, rooms: [usize; 3]) -> Transferring {
    match questions::of_transfer(transfer) {
        0 => Transferring::of(&entries(transfer), rooms),
        refusal => Transferring::refused(refusal),
    }
}

fn entries(transfer: &Transfer) -> Vec<Entry> {
    let [left, right] = [transfer.left, transfer.right].map(|side| Half::of_any_size(&side));
    let (sender, receiver) = (transfer.sender as u64, transfer.receiver as u64);
    pair(&left, &right, sender, receiver)
}
