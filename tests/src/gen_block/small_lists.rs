//! All small lists of sizes, and the arrays on their templates.

use crate::gen_block::library::GenBlock;

pub const MOST_PROCESSORS: u32 = 4;
pub const LARGEST_SIZE: i32 = 5;

/// Stride and first cell.
pub const ALIGNMENTS: [[i64; 2]; 9] = [
    [1, 0],
    [1, 1],
    [1, 3],
    [2, 0],
    [2, 1],
    [3, 0],
    [3, 2],
    [4, 1],
    [7, 0],
];

/// Every list of 1 to 4 sizes from 0 to 5.
pub fn all() -> Vec<Vec<i32>> {
    let mut lists = Vec::new();
    for processors in 1..=MOST_PROCESSORS {
        let numbers = LARGEST_SIZE + 1;
        for number in 0..numbers.pow(processors) {
            let size = |place| number / numbers.pow(place) % numbers;
            lists.push((0..processors).map(size).collect());
        }
    }
    lists
}

/// An array of so many elements with these bounds, its first one on the alignment's first
/// cell, on a template of so many cells.
pub fn array(
    sizes: &[i32],
    cells: i64,
    [stride, first_cell]: [i64; 2],
    size: i64,
    [array_lower, template_lower]: [i64; 2],
) -> GenBlock {
    let offset = first_cell + template_lower - stride * array_lower;
    let numbers = [
        cells,
        sizes.len() as i64,
        stride,
        offset,
        size,
        array_lower,
        template_lower,
    ];
    GenBlock::of(numbers, sizes)
}

/// How many elements fit on the template.
pub fn most_elements(cells: i64, [stride, first_cell]: [i64; 2]) -> i64 {
    (first_cell..cells).step_by(stride as usize).count() as i64
}

pub fn sum(sizes: &[i32]) -> i64 {
    sizes.iter().copied().map(i64::from).sum()
}
