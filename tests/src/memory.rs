//! Memory of which a part is lent to a fill as its list. What lies around that
//! part guards it: no fill may change it.

use std::ops::Range;

#[derive(Clone)]
pub struct Memory {
    bytes: Vec<u8>,
}

impl Memory {
    /// Bytes of all values, mixed, so that what is written shows.
    pub fn new(length: usize) -> Memory {
        let mixed = |place: usize| (place * 167 + 59) as u8;
        Memory {
            bytes: (0..length).map(mixed).collect(),
        }
    }

    pub fn lend(&mut self, list: Range<usize>) -> &mut [u8] {
        &mut self.bytes[list]
    }

    /// Writes addresses, 4 bytes each, the lowest first.
    pub fn write(&mut self, start: usize, addresses: &[u32]) {
        let entries = self.bytes[start..].chunks_exact_mut(4);
        for (entry, address) in entries.zip(addresses) {
            entry.copy_from_slice(&address.to_le_bytes());
        }
    }

    /// Reads addresses as a fill left them.
    pub fn read(&self, start: usize, entries: usize) -> impl Iterator<Item = u32> + '_ {
        self.bytes[start..]
            .chunks_exact(4)
            .take(entries)
            .map(|entry| u32::from_le_bytes([entry[0], entry[1], entry[2], entry[3]]))
    }

    /// The first byte in which two memories of one length differ.
    pub fn first_difference(&self, other: &Memory) -> Option<usize> {
        if self.bytes == other.bytes {
            return None;
        }
        self.bytes
            .iter()
            .zip(&other.bytes)
            .position(|(a, b)| a != b)
    }
}
