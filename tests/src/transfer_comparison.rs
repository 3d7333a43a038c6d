//! Calls the library for transfers and compares answers and lists with the
//! expected ones.

use crate::calls::CallTransfer;
use crate::comparison::{Comparison, Difference};
use crate::guarded_list::GuardedList;
use crate::transfer_enumeration::Entry;
use crate::transfer_library::Transferred;

/// What a transfer is to answer, and the entries it is to write, in order.
pub struct Transferring {
    pub answer: Transferred,
    pub entries: Vec<Entry>,
}

impl Comparison {
    /// Compares the answer, the entries in order, and every number in the lists
    /// after them and around the lists. Gives the entries as they were found.
    pub fn transfers(
        &mut self,
        transfer: &impl CallTransfer,
        rooms: [usize; 3],
        expected: &Transferring,
    ) -> Result<Vec<Entry>, Difference> {
        let mut lists = rooms.map(GuardedList::new);
        let lent = lists.each_mut().map(GuardedList::lend);
        let answer = transfer.transfers(lent);
        self.same(answer, expected.answer, || {
            format!("{transfer:?} with lists of {rooms:?}")
        })?;
        let written = expected.entries.len();
        let entries: Vec<Entry> = (0..written)
            .map(|place| lists.each_ref().map(|list| list.at(place)))
            .collect();
        self.same(&entries, &expected.entries, || {
            format!("entries of {transfer:?} with lists of {rooms:?}")
        })?;
        for list in &lists {
            self.same(list.first_change(written), None, || {
                format!("first wrong write of {transfer:?} with lists of {rooms:?}")
            })?;
        }
        Ok(entries)
    }
}
