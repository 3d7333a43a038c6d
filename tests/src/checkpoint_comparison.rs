//! Calls the library for checkpoints and restores, and compares answers and lists with
//! the expected ones.

use crate::calls::Calls;
use crate::checkpoint_answers;
use crate::checkpoint_enumeration::Layout;
use crate::checkpoint_library::{Copied, Direction};
use crate::comparison::{Comparison, Difference, Outcome};
use crate::guarded_list::GuardedList;

/// What a call is to answer, and the words that are to begin the list it writes.
pub struct Copying {
    pub answer: Copied,
    pub words: Vec<i64>,
}

impl Comparison {
    /// Compares the answer, the words that were written, every word after them and
    /// around the lists, and the list that was read. Gives the words as they were found.
    pub fn copy(
        &mut self,
        direction: Direction,
        layout: &Layout<impl Calls>,
        from: &[i64],
        room: usize,
    ) -> Result<Vec<i64>, Difference> {
        let m = &layout.m;
        let expected = checkpoint_answers::copy(direction, layout, from, room);
        let mut read = GuardedList::holding(from);
        let mut written = GuardedList::new(room);
        let answer = m.copy(direction, read.lend(), written.lend());
        let call = || format!("{direction:?} from {} words to {room}, {m:?}", from.len());
        self.same(answer, expected.answer, call)?;
        let wrong = written.first_difference(&expected.words);
        self.same(wrong, None, || format!("first wrong word of {}", call()))?;
        let changed = read.first_difference(from);
        self.same(changed, None, || {
            format!("first change in what is read by {}", call())
        })?;
        Ok(written.lend()[..expected.words.len()].to_vec())
    }

    /// Saves an array under one mapping and restores it under another of as many
    /// elements: each element's word is where the other has it.
    pub fn save_and_restore(
        &mut self,
        old: &Layout<impl Calls>,
        new: &Layout<impl Calls>,
    ) -> Outcome {
        let size = old.places.len();
        let storage = distinct_words(size);
        let saved = self.copy(Direction::Checkpoint, old, &storage, size)?;
        let restored = self.copy(Direction::Restore, new, &saved, size)?;
        let is_moved = |(&from, &to): (&usize, &usize)| storage[from] == restored[to];
        let are_moved = old.places.iter().zip(&new.places).all(is_moved);
        self.same(are_moved, true, || {
            format!("saved under {:?}, restored under {:?}", old.m, new.m)
        })
    }
}

/// No two alike in their low half or their high half.
pub fn distinct_words(words: usize) -> Vec<i64> {
    (1..=words as u64)
        .map(|number| number.wrapping_mul(0x9e37_79b9_7f4a_7c15) as i64)
        .collect()
}
