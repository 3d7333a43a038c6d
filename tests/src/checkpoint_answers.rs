//! The answers that the library is to give for checkpoints and restores, and the words
//! that these are to write: by the questions and the enumeration.

use crate::calls::Calls;
use crate::checkpoint_comparison::Copying;
use crate::checkpoint_enumeration::Layout;
use crate::checkpoint_library::{Copied, Direction};
use crate::questions;

impl Copying {
    fn refused(refusal: i32, needed: i64) -> Copying {
        Copying {
            answer: Copied {
                refusal,
                needed: needed as i32,
            },
            words: Vec::new(),
        }
    }
}

/// What a call does with a list of these words and another of so many.
pub fn copy(
    direction: Direction,
    layout: &Layout<impl Calls>,
    from: &[i64],
    room: usize,
) -> Copying {
    match questions::of_copy(&layout.m, [from.len(), room]) {
        0 => Copying {
            answer: Copied {
                refusal: 0,
                needed: 0,
            },
            words: words(direction, &layout.places, from),
        },
        13 => Copying::refused(13, layout.m.numbers().size),
        refusal => Copying::refused(refusal, 0),
    }
}

/// Index order from storage, or storage from index order.
fn words(direction: Direction, places: &[usize], from: &[i64]) -> Vec<i64> {
    match direction {
        Direction::Checkpoint => places.iter().map(|&place| from[place]).collect(),
        Direction::Restore => {
            let mut storage = vec![0; places.len()];
            for (&place, &word) in places.iter().zip(from) {
                storage[place] = word;
            }
            storage
        }
    }
}
