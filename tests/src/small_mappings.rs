//! Every small mapping: each element there and back, each processor's count,
//! and the refusals at the ends of the indices, processors, addresses and cells.

use crate::calls::Calls;
use crate::comparison::{Comparison, Difference, Outcome};
use crate::counting::{Counting, WAYS};
use crate::enumeration::{enumerate, Array, Enumeration};
use crate::library::{Counted, Found, Mapping, Owned};
use crate::small_bounds::{self, with_bounds};

pub const MOST_CELLS: u64 = 40;
const MOST_PROCESSORS: u64 = 5;
const LARGEST_BLOCK: u64 = 6;
const LARGEST_STRIDE: u64 = 5;
const LARGEST_FIRST_CELL: i64 = 4;

/// One in so many arrays, and the templates, that are tried with every pair of bounds.
const ONE_IN: usize = 37;
const SOME_CELLS: [u64; 4] = [1, 7, 23, 40];

/// Compares the library with the enumeration. Each template has the next pair of
/// bounds.
pub fn compare_arrays(comparison: &mut Comparison) -> Result<String, Difference> {
    let mut bounds = small_bounds::in_turn();
    let mut mappings = 0;
    for array in largest_arrays() {
        for (cells, bounds) in (1..=MOST_CELLS).zip(&mut bounds) {
            mappings += compare_sizes(comparison, cells, &with_bounds(&array, bounds))?;
        }
    }
    Ok(format!("{mappings} small mappings, every element"))
}

/// The same on some arrays and templates, with every pair of bounds.
pub fn compare_bounds(comparison: &mut Comparison) -> Result<String, Difference> {
    let mut mappings = 0;
    for array in largest_arrays().iter().step_by(ONE_IN) {
        for bounds in small_bounds::ALL {
            for cells in SOME_CELLS {
                mappings += compare_sizes(comparison, cells, &with_bounds(array, bounds))?;
            }
        }
    }
    Ok(format!(
        "{mappings} small mappings, with every pair of bounds"
    ))
}

/// Every size that fits, the first that does not, and arrays that begin before the
/// template. Says how many.
fn compare_sizes(
    comparison: &mut Comparison,
    cells: u64,
    array: &Array,
) -> Result<u64, Difference> {
    let enumeration = enumerate(array);
    let most = most_elements(cells, array);
    for size in 0..=most {
        let m = mapping(cells, array, size);
        compare_array(comparison, &m, &enumeration)?;
        compare_before_template(comparison, &m)?;
    }
    compare_off_template(comparison, &mapping(cells, array, most + 1))?;
    Ok(2 * most + 3)
}

/// Compares the three ways of counting with the enumeration.
pub fn compare_countings(comparison: &mut Comparison) -> Result<String, Difference> {
    for (array, bounds) in largest_arrays().iter().zip(small_bounds::in_turn()) {
        let array = with_bounds(array, bounds);
        let enumeration = enumerate(&array);
        for way in WAYS {
            compare_counting(comparison, &Counting::new(array, way), &enumeration)?;
        }
    }
    Ok("ways of counting, on the small mappings".to_string())
}

/// For all other numbers the array with the most elements. Smaller arrays and
/// templates have its first elements, at the same places.
pub fn largest_arrays() -> Vec<Array> {
    let mut arrays = Vec::new();
    for processors in 1..=MOST_PROCESSORS {
        for block in 1..=LARGEST_BLOCK {
            for stride in 1..=LARGEST_STRIDE {
                for offset in 0..=LARGEST_FIRST_CELL {
                    let mut array = Array {
                        processors,
                        block,
                        stride,
                        offset,
                        size: 0,
                        array_lower: 0,
                        template_lower: 0,
                    };
                    array.size = most_elements(MOST_CELLS, &array);
                    arrays.push(array);
                }
            }
        }
    }
    arrays
}

/// How many elements fit on the template.
pub fn most_elements(cells: u64, array: &Array) -> u64 {
    let on_template = |&index: &i64| array.cell(index) < cells;
    (array.array_lower..).take_while(on_template).count() as u64
}

pub fn mapping(cells: u64, array: &Array, size: u64) -> Mapping {
    Mapping {
        cells: cells as i64,
        processors: array.processors as i64,
        block: array.block as i64,
        stride: array.stride as i64,
        offset: array.offset,
        size: size as i64,
        array_lower: array.array_lower,
        template_lower: array.template_lower,
    }
}

/// Each element there and back, each count, and one past each end.
pub fn compare_array(
    comparison: &mut Comparison,
    m: &impl Calls,
    enumeration: &Enumeration,
) -> Outcome {
    let &Mapping {
        processors,
        size,
        array_lower: first,
        ..
    } = m.numbers();
    let end = first + size;
    for index in first..end {
        comparison.ownership(m, index, Owned::at(enumeration.place(index)))?;
    }
    for processor in 0..processors {
        let held = enumeration.held_below(end, processor as u64);
        compare_processor(comparison, m, processor, held)?;
    }
    for index in [first - 1, end] {
        comparison.ownership(m, index, Owned::refused(9))?;
    }
    for processor in [-1, processors] {
        comparison.local_count(m, processor, Counted::refused(8))?;
        comparison.going_back(m, processor, 0, Found::refused(8))?;
    }
    Ok(())
}

fn compare_processor(
    comparison: &mut Comparison,
    m: &impl Calls,
    processor: i64,
    held: &[i64],
) -> Outcome {
    let elements = held.len() as i64;
    comparison.local_count(m, processor, Counted::elements(held.len() as u64))?;
    for (address, &index) in (0..elements).zip(held) {
        comparison.going_back(m, processor, address, Found::element(index))?;
    }
    for address in [-1, elements] {
        comparison.going_back(m, processor, address, Found::refused(9))?;
    }
    Ok(())
}

/// The first element sits on the cell before cell 0. Without elements that is no
/// fault.
fn compare_before_template(comparison: &mut Comparison, m: &Mapping) -> Outcome {
    let before = Mapping {
        offset: m.offset - m.first_cell() - 1,
        ..*m
    };
    if m.size > 0 {
        return compare_off_template(comparison, &before);
    }
    comparison.ownership(&before, m.array_lower, Owned::refused(9))?;
    comparison.local_count(&before, 0, Counted::elements(0))
}

fn compare_off_template(comparison: &mut Comparison, m: &Mapping) -> Outcome {
    comparison.ownership(m, m.array_lower, Owned::refused(5))?;
    comparison.local_count(m, 0, Counted::refused(5))?;
    comparison.going_back(m, 0, 0, Found::refused(5))
}

fn compare_counting(
    comparison: &mut Comparison,
    counting: &Counting,
    enumeration: &Enumeration,
) -> Outcome {
    let (array, way) = (counting.array, counting.way);
    for end in array.array_lower..=array.indices().end {
        for processor in 0..array.processors {
            let expected = enumeration.held_below(end, processor).len() as u64;
            let counted = counting.below(end, processor);
            comparison.same(counted, expected, || {
                format!("elements below {end} of processor {processor} by {way:?}, {array:?}")
            })?;
        }
    }
    Ok(())
}
