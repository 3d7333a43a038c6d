//! Grids of rank 2 and 3, their elements, sections and fills, found by hand.

use crate::comparison::{Comparison, Difference, Outcome};
use crate::gen_block::transfer_library::Side;
use crate::grids::library::{by_sizes, in_blocks, Fill, Grid, GridFound, GridSteps, DIMENSIONS};
use crate::library::Owned;
use crate::section_comparison::Filling;
use crate::section_library::{Filled, Placed, Steps};

const LARGEST_QUOTA: i64 = 1_000_000;
/// Entries of the lists that are lent.
const ROOM: usize = 9;

/// Indices 0, 1, 4 and 5 are processor 0's, 2 and 3 processor 1's.
fn six(triplet: [i64; 3]) -> Side {
    in_blocks([6, 2, 2, 1, 0, 6, 0, 0], triplet)
}

/// Indices 0 and 2 are processor 0's, 1 and 3 processor 1's.
fn four(triplet: [i64; 3]) -> Side {
    in_blocks([4, 2, 1, 1, 0, 4, 0, 0], triplet)
}

/// Index 1 is processor 0's, 2 to 4 are processor 1's.
fn one_and_three(triplet: [i64; 3]) -> Side {
    by_sizes([4, 2, 1, -1, 4, 1, 0], &[1, 3], triplet)
}

/// Both elements are processor 1's.
fn all_on_one(triplet: [i64; 3]) -> Side {
    by_sizes([2, 2, 1, 0, 2, 0, 0], &[0, 2], triplet)
}

fn matrix(first: [i64; 3], second: [i64; 3]) -> Grid {
    Grid::of(&[six(first), four(second)])
}

fn cube(first: [i64; 3], second: [i64; 3], third: [i64; 3]) -> Grid {
    Grid::of(&[one_and_three(first), four(second), all_on_one(third)])
}

/// Declared indices, processor and address.
const MATRIX: [([i64; 3], [i32; 2]); 6] = [
    ([0, 0, 0], [0, 0]),
    ([2, 0, 0], [1, 0]),
    ([0, 1, 0], [2, 0]),
    ([4, 2, 0], [0, 6]),
    ([3, 3, 0], [3, 3]),
    ([5, 3, 0], [2, 7]),
];
const CUBE: [([i64; 3], [i32; 2]); 5] = [
    ([1, 0, 0], [4, 0]),
    ([2, 0, 0], [5, 0]),
    ([3, 1, 0], [7, 1]),
    ([1, 3, 1], [6, 3]),
    ([4, 3, 1], [7, 11]),
];

pub fn compare_elements(comparison: &mut Comparison) -> Result<String, Difference> {
    let whole = [0, 0, 1];
    for (grid, elements) in [
        (matrix(whole, whole), &MATRIX[..]),
        (cube(whole, whole, whole), &CUBE[..]),
    ] {
        for &(indices, [processor, address]) in elements {
            let owned = Owned {
                refusal: 0,
                processor,
                address,
            };
            comparison.grid_ownership(&grid, indices, owned)?;
            let found = GridFound::element(indices);
            comparison.grid_going_back(&grid, processor.into(), address.into(), found)?;
        }
    }
    Ok("elements of grids, by hand".to_string())
}

/// A section, a processor, its first place and the count; its tries, its addresses.
type WholeList = (Grid, i64, [i32; 2], i32, &'static [u32]);

/// The next row is entered at the processor's first element in it, and the last element of
/// each row is paid for; downward; a processor that owns no row, or nothing in the rows; an
/// empty dimension.
fn lists() -> Vec<WholeList> {
    let (up, down) = ([1, 5, 1], [5, 1, -1]);
    let (all, none) = ([0, 3, 1], [2, 1, 1]);
    let back = cube([4, 2, -1], [0, 3, 3], [0, 1, 1]);
    vec![
        (matrix(up, all), 1, [1, 20], 6, &[0, 1, 2, 3]),
        (matrix(up, all), 2, [5, 20], 10, &[1, 2, 3, 5, 6, 7]),
        (matrix(down, all), 1, [2, 20], 6, &[1, 0, 3, 2]),
        (matrix(up, [0, 2, 2]), 0, [0, 10], 10, &[1, 2, 3, 5, 6, 7]),
        (matrix(up, [0, 2, 2]), 2, [10, 10], 0, &[]),
        (matrix([0, 1, 1], all), 1, [8, 8], 0, &[]),
        (matrix(up, none), 3, [0, 0], 0, &[]),
        (matrix([5, 4, 3], all), 0, [0, 0], 0, &[]),
        (back.clone(), 7, [3, 12], 6, &[5, 4, 3, 11, 10, 9]),
        (back.clone(), 5, [0, 12], 6, &[2, 1, 0, 8, 7, 6]),
        (back.clone(), 6, [12, 12], 0, &[]),
        (back, 3, [12, 12], 0, &[]),
    ]
}

pub fn compare_lists(comparison: &mut Comparison) -> Result<String, Difference> {
    for (grid, processor, [first, count], tries, addresses) in lists() {
        let placed = Placed::at(first as u64);
        comparison.grid_first_place(&grid, processor, placed)?;
        let numbers = [processor, first.into(), LARGEST_QUOTA];
        let answer = [0, addresses.len() as i32, tries, count];
        compare_fill(comparison, &grid, numbers, answer, addresses)?;
    }
    Ok("whole lists of grids, by hand".to_string())
}

/// Processor, place and quota of a fill of (1:5, 0:3); refusal, entries, tries and place; and
/// the addresses.
type OneFill = ([i64; 3], [i32; 4], &'static [u32]);

const FILLS: [OneFill; 12] = [
    ([1, 1, 3], [0, 1, 1, 2], &[0]),
    ([1, 1, 4], [0, 2, 3, 11], &[0, 1]),
    ([1, 2, 3], [0, 1, 2, 11], &[1]),
    ([1, 1, 6], [0, 3, 4, 12], &[0, 1, 2]),
    ([1, 12, 3], [0, 1, 2, 20], &[3]),
    ([1, 20, 3], [0, 0, 0, 20], &[]),
    ([1, 3, 3], [10, 0, 0, 0], &[]),
    ([1, 6, 3], [10, 0, 0, 0], &[]),
    ([1, 21, 3], [10, 0, 0, 0], &[]),
    ([1, 0, 2], [10, 0, 0, 0], &[]),
    ([1, 1, 2], [11, 0, 0, 0], &[]),
    ([4, 0, 2], [8, 0, 0, 0], &[]),
];

pub fn compare_fills(comparison: &mut Comparison) -> Result<String, Difference> {
    let grid = matrix([1, 5, 1], [0, 3, 1]);
    for (numbers, answer, addresses) in FILLS {
        compare_fill(comparison, &grid, numbers, answer, addresses)?;
    }
    compare_steps(comparison)?;
    Ok("fills and steps of grids, by hand".to_string())
}

fn compare_fill(
    comparison: &mut Comparison,
    grid: &Grid,
    [processor, place, quota]: [i64; 3],
    [refusal, entries, tries, next]: [i32; 4],
    addresses: &[u32],
) -> Outcome {
    let fill = Fill {
        grid: grid.clone(),
        processor,
        place,
        quota,
    };
    let expected = Filling {
        answer: Filled {
            refusal,
            entries,
            tries,
            place: next,
        },
        addresses: addresses.to_vec(),
    };
    comparison.grid_fill(&fill, ROOM, &expected)
}

/// Two steps, one, and none past the rank; one by sizes; an empty dimension.
fn compare_steps(comparison: &mut Comparison) -> Outcome {
    let counted = |count| Steps {
        count,
        ..Steps::refused(0)
    };
    let in_blocks_of_two = Steps {
        steps: 2,
        cells: 1,
        column: 1,
        return_cells: 3,
        return_courses: 1,
        return_column: -1,
        ..counted(5)
    };
    let in_blocks_of_one = Steps {
        steps: 1,
        cells: 2,
        courses: 1,
        ..counted(4)
    };
    let by_sizes = Steps {
        steps: 1,
        cells: 2,
        column: 2,
        ..counted(2)
    };
    let matrix_steps = [in_blocks_of_two, in_blocks_of_one, counted(1)];
    let cases = [
        (matrix([1, 5, 1], [0, 3, 1]), 20, matrix_steps),
        (
            cube([4, 2, -2], [2, 2, 1], [1, 0, 1]),
            0,
            [by_sizes, counted(1), counted(0)],
        ),
    ];
    for (grid, count, dimensions) in cases {
        let expected = GridSteps {
            refusal: 0,
            count,
            dimensions,
        };
        comparison.grid_steps(&grid, expected)?;
    }
    Ok(())
}

/// A grid, a section, and what they are refused by.
pub fn compare_refusals(comparison: &mut Comparison) -> Result<String, Difference> {
    let lawful = matrix([1, 5, 1], [0, 3, 1]);
    let mut cases = Vec::new();
    for rank in [i64::MIN, -1, 0, 4, (1 << 32) + 2, i64::MAX] {
        let mut grid = lawful.clone();
        grid.rank = rank;
        grid.dimensions[0].m.cells = 0;
        cases.push((grid, 17, 17));
    }
    for (place, number) in [(0, 33), (1, 512)] {
        let mut grid = lawful.clone();
        grid.dimensions[place].m.processors = number;
        grid.dimensions[1 - place].m.processors = 1_024 / number + 1;
        cases.push((grid.clone(), 17, 17));
        grid.dimensions[1].triplet.step = 0;
        cases.push((grid.clone(), 17, 6));
        grid.dimensions[1].m.block = 0;
        cases.push((grid, 3, 3));
    }
    let mut first_of_two = lawful.clone();
    first_of_two.dimensions[0].triplet.upper = 6;
    first_of_two.dimensions[1].m.cells = 0;
    cases.push((first_of_two, 1, 7));
    for (grid, of_elements, of_sections) in cases {
        compare_refused(comparison, &grid, of_elements, of_sections)?;
    }
    Ok("grids that are refused, by hand".to_string())
}

/// Everything else is at fault too.
fn compare_refused(
    comparison: &mut Comparison,
    grid: &Grid,
    of_elements: i32,
    of_sections: i32,
) -> Outcome {
    comparison.grid_ownership(grid, [-1; DIMENSIONS], Owned::refused(of_elements))?;
    comparison.grid_going_back(grid, -1, -1, GridFound::refused(of_elements))?;
    comparison.grid_steps(grid, GridSteps::refused(of_sections))?;
    comparison.grid_first_place(grid, -1, Placed::refused(of_sections))?;
    compare_fill(comparison, grid, [-1, -1, 2], [of_sections, 0, 0, 0], &[])
}
