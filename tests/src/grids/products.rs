//! Products of processors and of elements at and past their limits, with zeros among them,
//! and such as are 0 or small again in 32, 63 and 64 bits.

use crate::comparison::{Comparison, Difference, Outcome};
use crate::gen_block::transfer_library::Side;
use crate::grids::library::{by_sizes, in_blocks, Fill, Grid, DIMENSIONS};
use crate::grids::questions::{self, section_count};

const LARGEST: i64 = 2_147_483_647;

/// 46340 * 46341 is below the limit, 46341 * 46341 past it; 46341 * 46341 - 2^32, 2^16 * 2^16,
/// 2^21 * 2^21 * 2^21 and 2^30 * 2^30 * 2^4 seem small again where bits are lost.
const SIZES: [i64; 13] = [
    0,
    1,
    2,
    3,
    1 << 4,
    46_340,
    46_341,
    1 << 15,
    1 << 16,
    1 << 21,
    1 << 30,
    LARGEST - 1,
    LARGEST,
];
const PROCESSORS: [i64; 11] = [1, 2, 3, 7, 31, 32, 33, 341, 342, 1_023, 1_024];

/// Grids of just so many processors and elements, and one more: the sizes, the processors,
/// and what is met.
const LIMITS: [([i64; 3], [i64; 3], i32); 22] = [
    ([1, 1, 1], [32, 32, 1], 0),
    ([1, 1, 1], [32, 33, 1], 17),
    ([1, 1, 1], [1_024, 1, 1], 0),
    ([1, 1, 1], [1, 1, 1_024], 0),
    ([1, 1, 1], [2, 1_024, 1], 17),
    ([1, 1, 1], [8, 8, 16], 0),
    ([1, 1, 1], [5, 5, 41], 17),
    ([1, 1, 1], [1_024, 1_024, 1_024], 17),
    ([46_341, 46_340, 1], [1, 1, 1], 0),
    ([46_341, 46_341, 1], [1, 1, 1], 17),
    ([LARGEST, 1, 1], [1, 1, 1], 0),
    ([1, 1, LARGEST], [4, 4, 64], 0),
    ([2, 1_073_741_823, 1], [1, 1, 1], 0),
    ([2, 1_073_741_824, 1], [1, 1, 1], 17),
    ([1_290, 1_290, 1_290], [1, 1, 1], 0),
    ([1_291, 1_291, 1_290], [1, 1, 1], 17),
    ([1 << 30, 1 << 30, 1 << 4], [1, 1, 1], 17),
    ([0, LARGEST, LARGEST], [1, 1, 1], 0),
    ([LARGEST, 0, LARGEST], [1, 1, 1], 0),
    ([LARGEST, LARGEST, 0], [1, 1, 1], 0),
    ([0, LARGEST, LARGEST], [1_024, 2, 1], 17),
    ([LARGEST, LARGEST, LARGEST], [1_024, 1_024, 1_024], 17),
];

const ORDERS: [[usize; 3]; 6] = [
    [0, 1, 2],
    [0, 2, 1],
    [1, 0, 2],
    [1, 2, 0],
    [2, 0, 1],
    [2, 1, 0],
];

/// By hand, in each order of the dimensions and each dealing.
pub fn compare_limits(comparison: &mut Comparison) -> Result<String, Difference> {
    for (sizes, processors, refusal) in LIMITS {
        for [i, j, k] in ORDERS {
            let sizes = [sizes[i], sizes[j], sizes[k]];
            let processors = [processors[i], processors[j], processors[k]];
            for dealings in 0..8 {
                let grid = grid(3, sizes, processors, dealings);
                let found = grid.section_steps().refusal;
                comparison.same(found, refusal.into(), || format!("products of {grid:?}"))?;
                compare_ends(comparison, &grid)?;
            }
        }
    }
    Ok("products at and past their limits, by hand".to_string())
}

/// All combinations of sizes on one processor, and of processors with two elements or none.
pub fn compare_combinations(comparison: &mut Comparison) -> Result<String, Difference> {
    for rank in 1..=3 {
        for sizes in triples(&SIZES) {
            compare_ends(comparison, &grid(rank, sizes, [1; 3], 0))?;
        }
        for processors in triples(&PROCESSORS) {
            for sizes in [[2; 3], [0, 2, 2]] {
                compare_ends(comparison, &grid(rank, sizes, processors, 0))?;
            }
        }
    }
    Ok("products of sizes and of processors, in all combinations".to_string())
}

fn triples(numbers: &[i64]) -> impl Iterator<Item = [i64; 3]> + '_ {
    let pairs = numbers
        .iter()
        .flat_map(|&first| numbers.iter().map(move |&second| [first, second]));
    pairs.flat_map(|[first, second]| numbers.iter().map(move |&third| [first, second, third]))
}

/// Each dimension has a template as long as its array, or one cell, and its whole section.
fn grid(rank: i64, sizes: [i64; 3], processors: [i64; 3], dealings: u32) -> Grid {
    let dimensions = std::array::from_fn(|place| {
        let has_sizes = dealings >> place & 1 == 1;
        dimension(sizes[place], processors[place], has_sizes)
    });
    Grid { rank, dimensions }
}

/// In blocks of 3, or all on the last processor.
fn dimension(size: i64, processors: i64, has_sizes: bool) -> Side {
    let (cells, triplet) = (size.max(1), [0, size - 1, 1]);
    if !has_sizes {
        return in_blocks([cells, processors, 3, 1, 0, size, 0, 0], triplet);
    }
    let mut sizes = vec![0; processors as usize];
    sizes[processors as usize - 1] = cells as i32;
    by_sizes([cells, processors, 1, 0, size, 0, 0], &sizes, triplet)
}

/// The first element and the last, there and back, and the first and the last position.
fn compare_ends(comparison: &mut Comparison, grid: &Grid) -> Outcome {
    let last = grid.dimensions.each_ref().map(|side| side.m.size - 1);
    compare_element(comparison, grid, [0; DIMENSIONS])?;
    compare_element(comparison, grid, last)?;
    let is_accepted = questions::of_section(grid) == 0;
    let count = if is_accepted {
        section_count(grid) as i64
    } else {
        1
    };
    let owner = match grid.ownership(last) {
        owned if owned.refusal == 0 => owned.processor.into(),
        _ => 0,
    };
    for (processor, place) in [(0, 0), (owner, (count - 1).max(0)), (owner, count)] {
        let fill = Fill {
            grid: grid.clone(),
            processor,
            place,
            quota: 3,
        };
        comparison.grid_section(&fill, 1)?;
    }
    Ok(())
}

/// The answers are compared with the expected ones, and so is where the owner has the element.
fn compare_element(
    comparison: &mut Comparison,
    grid: &Grid,
    indices: [i64; DIMENSIONS],
) -> Outcome {
    let owned = grid.ownership(indices);
    let (processor, address) = (owned.processor.into(), owned.address.into());
    comparison.grid_elements(grid, indices, processor, address)?;
    comparison.grid_elements(grid, indices, processor, LARGEST)
}
