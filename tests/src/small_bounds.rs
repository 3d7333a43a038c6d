//! The lower bounds of small mappings: an array's and a template's, each from -4
//! to 4.

use std::iter;

use crate::enumeration::Array;

/// The array's lower bound and the template's.
pub type Bounds = [i64; 2];

const SMALLEST: i64 = -4;
const NUMBERS: usize = 9;

pub const ALL: [Bounds; NUMBERS * NUMBERS] = all();

const fn all() -> [Bounds; NUMBERS * NUMBERS] {
    let mut all = [[0; 2]; NUMBERS * NUMBERS];
    let mut place = 0;
    while place < all.len() {
        let (array, template) = (place / NUMBERS, place % NUMBERS);
        all[place] = [SMALLEST + array as i64, SMALLEST + template as i64];
        place += 1;
    }
    all
}

/// All of them, over and over.
pub fn in_turn() -> impl Iterator<Item = Bounds> {
    iter::repeat(ALL).flatten()
}

/// The array with other bounds, its first element on the cell on which it was.
pub fn with_bounds(array: &Array, [array_lower, template_lower]: Bounds) -> Array {
    let first_cell = array.cell(array.array_lower) as i64;
    Array {
        offset: first_cell + template_lower - array.stride as i64 * array_lower,
        array_lower,
        template_lower,
        ..*array
    }
}
