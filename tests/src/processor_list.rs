//! A processor's list of a section, and what fills take from it.

/// A fill goes on only while it has this many tries left.
const MOST_TRIES: u64 = 3;

/// An element of the list: its position, its address, and the tries of going on
/// from it.
#[derive(Clone, Copy, Debug)]
pub struct Entry {
    pub position: u64,
    pub address: u32,
    pub tries: u64,
}

/// A processor's list in rising position, or a part of it.
pub struct List {
    pub entries: Vec<Entry>,
    /// The place after the last entry.
    pub end: u64,
    /// Whether it goes on to the section's end.
    pub is_whole: bool,
}

impl List {
    /// The place after the first `taken` entries.
    pub fn place_after(&self, taken: usize) -> u64 {
        match self.entries.get(taken) {
            Some(entry) => entry.position,
            None => self.end,
        }
    }

    /// The entries after the first `taken` that a fill with this quota takes
    /// into a list with this room.
    pub fn taken_next(&self, taken: usize, quota: u64, room: usize) -> &[Entry] {
        let rest = &self.entries[taken..];
        let mut left = quota;
        let is_paid = |entry: &&Entry| {
            let goes_on = left >= MOST_TRIES;
            if goes_on {
                left -= entry.tries;
            }
            goes_on
        };
        &rest[..rest.iter().take(room).take_while(is_paid).count()]
    }
}

pub fn tries(entries: &[Entry]) -> u64 {
    entries.iter().map(|entry| entry.tries).sum()
}

pub fn addresses(entries: &[Entry]) -> Vec<u32> {
    entries.iter().map(|entry| entry.address).collect()
}
