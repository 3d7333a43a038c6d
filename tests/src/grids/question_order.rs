//! Grids with a fault of each kind in each dimension, beside too many processors or elements
//! and faults of what comes after: the refusal must name the first. Dimensions past the rank
//! have the same faults, and they are not looked at.

use crate::comparison::{Comparison, Difference, Outcome};
use crate::gen_block::sizes::Sizes;
use crate::gen_block::special_lists::lists_with_bytes;
use crate::gen_block::transfer_library::Side;
use crate::grids::library::{by_sizes, in_blocks, Fill, Grid, DIMENSIONS};
use crate::questions::LARGEST_STRIDE;
use crate::section_library::Triplet;

const LARGEST: i64 = 2_147_483_647;
const RANKS: [i64; 9] = [i64::MIN, -1, 0, 1, 2, 3, 4, (1 << 32) + 1, i64::MAX];
const ROOM: usize = 2;

type Exchange = fn(&mut Side);

/// A fault for each question of a dimension in its order, and for each half of 5.
const FAULTS: [Exchange; 9] = [
    |side| side.m.cells = 0,
    |side| side.m.processors = 1_025,
    |side| (side.m.block, side.sizes) = (0, Sizes::of(&[-1])),
    |side| side.m.stride = LARGEST_STRIDE + 1,
    |side| side.m.size = -1,
    |side| side.m.template_lower = LARGEST,
    |side| side.m.size = side.m.cells + 1,
    |side| side.triplet.step = 0,
    |side| side.triplet.upper = side.m.array_lower + side.m.size,
];

/// What is lawful, but too much beside other dimensions; and an array without elements.
const LAWFUL: [Exchange; 4] = [
    |_| (),
    with_many_processors,
    with_many_elements,
    |side| (side.m.size, side.triplet) = (0, Triplet::of([0, -1, 1])),
];

fn with_many_processors(side: &mut Side) {
    let mut sizes = vec![0; 1_024];
    sizes[..3].copy_from_slice(&[2, 1, 3]);
    (side.m.processors, side.sizes) = (1_024, Sizes::of(&sizes));
}

fn with_many_elements(side: &mut Side) {
    side.m.cells = LARGEST;
    side.m.size = LARGEST;
    side.sizes = Sizes::of(&[2, 1, LARGEST as i32]);
}

/// Six elements from 0 on, on 3 processors, in blocks of 2 or by the sizes 2, 1 and 3.
fn dimensions() -> [Side; 2] {
    let triplet = [0, 5, 2];
    [
        in_blocks([6, 3, 2, 1, 0, 6, 0, 0], triplet),
        by_sizes([6, 3, 1, 0, 6, 0, 0], &[2, 1, 3], triplet),
    ]
}

/// The dimension as it is and with each exchange.
fn variants(side: &Side) -> Vec<Side> {
    let exchanges = LAWFUL.into_iter().chain(FAULTS);
    let exchanged = exchanges.map(|exchange| {
        let mut side = side.clone();
        exchange(&mut side);
        side
    });
    exchanged.collect()
}

pub fn compare_combinations(comparison: &mut Comparison) -> Result<String, Difference> {
    let dimensions = dimensions();
    for dealings in 0..8 {
        let variants: [Vec<Side>; DIMENSIONS] =
            std::array::from_fn(|place| variants(&dimensions[dealings >> place & 1]));
        let [first, second, third] = &variants;
        for first in first {
            for second in second {
                for third in third {
                    let sides = [first.clone(), second.clone(), third.clone()];
                    compare_ranks(comparison, &sides)?;
                }
            }
        }
    }
    Ok("grids with faults in several dimensions and in their products".to_string())
}

/// With every rank, and with a processor and what comes after it lawful, at fault, or both.
fn compare_ranks(comparison: &mut Comparison, sides: &[Side; DIMENSIONS]) -> Outcome {
    for rank in RANKS {
        let grid = Grid {
            rank,
            dimensions: sides.clone(),
        };
        for processor in [0, 1_024] {
            compare_calls(comparison, &grid, processor)?;
        }
    }
    Ok(())
}

fn compare_calls(comparison: &mut Comparison, grid: &Grid, processor: i64) -> Outcome {
    let at_fault = i64::from(processor != 0);
    comparison.grid_elements(grid, [0, -at_fault, 0], processor, -at_fault)?;
    for (place, quota) in [(0, 3), (0, 2), (1, 2)] {
        let fill = Fill {
            grid: grid.clone(),
            processor,
            place,
            quota,
        };
        comparison.grid_section(&fill, ROOM)?;
    }
    Ok(())
}

/// Each list that is lawful or at fault, with bytes left over and without, for 96 cells in
/// each dimension, of either dealing.
pub fn compare_lists(comparison: &mut Comparison) -> Result<String, Difference> {
    let [blocks, sizes] = dimensions();
    for list in lists_with_bytes() {
        for place in 0..DIMENSIONS {
            for dealing in [0, 1] {
                let mut sides = [blocks.clone(), sizes.clone(), blocks.clone()];
                sides[place] = Side {
                    dealing,
                    sizes: list.clone(),
                    ..in_blocks([96, 3, 4, 5, 2, 19, 0, 0], [18, 0, -3])
                };
                compare_calls(comparison, &Grid::of(&sides), 0)?;
            }
        }
    }
    Ok("grids with lists of sizes, lawful and at fault, in each dimension".to_string())
}

/// Each dealing that has one bit, and 0, in each dimension. Block and sizes are both lawful,
/// and they deal the elements differently.
pub fn compare_dealings(comparison: &mut Comparison) -> Result<String, Difference> {
    let [blocks, sizes] = dimensions();
    let both = Side {
        sizes: sizes.sizes,
        ..blocks
    };
    for place in 0..DIMENSIONS {
        for dealing in (0..64).map(|bit| 1_i64 << bit).chain([0]) {
            let mut sides = [both.clone(), both.clone(), both.clone()];
            sides[place].dealing = dealing;
            let grid = Grid::of(&sides);
            for index in 0..6 {
                let mut indices = [1; DIMENSIONS];
                indices[place] = index;
                comparison.grid_elements(&grid, indices, index, index)?;
            }
            compare_calls(comparison, &grid, 0)?;
        }
    }
    Ok("each dealing in each dimension of a grid".to_string())
}
