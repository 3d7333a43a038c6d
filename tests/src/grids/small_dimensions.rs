//! Small dimensions of both dealings, with bounds and alignments, and small sections of each.

use crate::gen_block::transfer_library::Side;
use crate::grids::library::{by_sizes, in_blocks, Grid};
use crate::section_library::Triplet;

/// T, p, k, a, b, n, La and Lt. Some processors have no elements, one array has none.
const IN_BLOCKS: [[i64; 8]; 9] = [
    [7, 2, 2, 1, 0, 7, 0, 0],
    [6, 3, 1, 1, -1, 6, 1, 0],
    [11, 2, 3, 2, 1, 5, -2, -3],
    [5, 3, 2, 1, 0, 5, 0, 0],
    [4, 3, 4, 1, 0, 4, 0, 0],
    [9, 2, 2, 4, -4, 3, 2, 4],
    [3, 2, 1, 1, 9, 0, 5, 0],
    [2, 1, 1, 1, 1, 1, 0, 0],
    [12, 3, 2, 3, 0, 4, 0, 0],
];

/// T, p, a, b, n, La and Lt, and the sizes.
const BY_SIZES: [([i64; 7], &[i32]); 5] = [
    ([5, 3, 1, 0, 5, 0, 0], &[3, 0, 2]),
    ([4, 2, 1, 1, 4, -1, 0], &[0, 9]),
    ([8, 3, 2, 1, 4, 0, 0], &[2, 3, 4]),
    ([1, 2, 1, 0, 0, -3, 0], &[1, 0]),
    ([6, 1, 5, 0, 2, 0, 0], &[6]),
];

/// Every dimension with its whole array as its section, in rising order.
pub fn all() -> Vec<Side> {
    let blocks = IN_BLOCKS
        .into_iter()
        .map(|numbers| in_blocks(numbers, [0; 3]));
    let sizes = BY_SIZES
        .into_iter()
        .map(|(numbers, sizes)| by_sizes(numbers, sizes, [0; 3]));
    let whole = |side: Side| with_triplet(&side, triplets(&side)[0]);
    blocks.chain(sizes).map(whole).collect()
}

/// Sections both ways: whole arrays, every second and third element, upper bounds that are no
/// elements, one element, and none.
pub fn triplets(side: &Side) -> Vec<Triplet> {
    let (first, last) = (side.m.array_lower, side.m.array_lower + side.m.size - 1);
    if side.m.size == 0 {
        return [[first, last, 1], [7, 9, -2]].map(Triplet::of).to_vec();
    }
    let triplets = [
        [first, last, 1],
        [last, first, -1],
        [first, last, 2],
        reaching_past(last, first, -2),
        [last, first, -3],
        reaching_past((first + 1).min(last), last, 3),
        [last, last + 4, 5],
        [first, first + 1, -1],
    ];
    triplets.map(Triplet::of).to_vec()
}

/// The elements from one towards another, with the last upper bound that takes in no more.
fn reaching_past(lower: i64, towards: i64, step: i64) -> [i64; 3] {
    let last = lower + (towards - lower) / step * step;
    [lower, last + step - step.signum(), step]
}

pub fn with_triplet(side: &Side, triplet: Triplet) -> Side {
    Side {
        triplet,
        ..side.clone()
    }
}

/// Every grid of so many of these dimensions.
pub fn grids(rank: u32) -> impl Iterator<Item = Grid> {
    let sides = all();
    let choices = sides.len();
    (0..choices.pow(rank)).map(move |number| {
        let side = |place| sides[number / choices.pow(place) % choices].clone();
        Grid::of(&(0..rank).map(side).collect::<Vec<Side>>())
    })
}

/// Every section of a grid that has these triplets.
pub fn sections(grid: &Grid) -> impl Iterator<Item = Grid> + '_ {
    let choices: Vec<Vec<Triplet>> = grid.used().iter().map(triplets).collect();
    let combinations: usize = choices.iter().map(Vec::len).product();
    (0..combinations).map(move |combination| {
        let mut rest = combination;
        let mut section = grid.clone();
        for (side, choices) in section.dimensions.iter_mut().zip(&choices) {
            side.triplet = choices[rest % choices.len()];
            rest /= choices.len();
        }
        section
    })
}
