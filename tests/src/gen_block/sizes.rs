//! A list of sizes, as the C functions take it.

use std::fmt::{self, Debug, Formatter};
use std::ops::Range;
use std::rc::Rc;

/// What lies around a list. Read as a part of it, it makes a size below 0.
const AROUND: u8 = 0xff;
const GUARD: usize = 4;
/// How many sizes are shown.
const SHOWN: usize = 12;

/// Bytes, 4 to a size, the lowest first, at any address.
#[derive(Clone)]
pub struct Sizes {
    memory: Rc<[u8]>,
    list: Range<usize>,
}

impl Sizes {
    pub fn of(sizes: &[i32]) -> Sizes {
        let bytes: Vec<u8> = sizes.iter().flat_map(|size| size.to_le_bytes()).collect();
        Sizes::of_bytes(&bytes)
    }

    /// Where the list begins goes by its bytes, so that many lists begin everywhere.
    pub fn of_bytes(bytes: &[u8]) -> Sizes {
        let sum: usize = bytes.iter().map(|&byte| usize::from(byte)).sum();
        let start = GUARD + sum % 4;
        let list = start..start + bytes.len();
        let mut memory = vec![AROUND; list.end + GUARD];
        memory[list.clone()].copy_from_slice(bytes);
        Sizes {
            memory: memory.into(),
            list,
        }
    }

    pub fn bytes(&self) -> &[u8] {
        &self.memory[self.list.clone()]
    }

    /// The whole sizes. Up to 3 bytes left over are none.
    pub fn numbers(&self) -> impl Iterator<Item = i32> + '_ {
        self.bytes()
            .chunks_exact(4)
            .map(|size| i32::from_le_bytes([size[0], size[1], size[2], size[3]]))
    }
}

/// The first sizes, how many there are, and how many bytes.
impl Debug for Sizes {
    fn fmt(&self, formatter: &mut Formatter) -> fmt::Result {
        let (sizes, bytes) = (self.numbers().count(), self.list.len());
        let first = self.numbers().take(SHOWN);
        formatter.debug_list().entries(first).finish()?;
        write!(formatter, " of {sizes} sizes, {bytes} bytes")
    }
}
