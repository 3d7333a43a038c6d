//! Random mappings over the full range of each number, bounds too, at random
//! elements and processors, compared with the cheapest way of counting.

use crate::comparison::{Comparison, Difference, Outcome};
use crate::counting::Counting;
use crate::enumeration::Place;
use crate::generator::Generator;
use crate::library::{Counted, Found, Mapping, Owned};
use crate::questions::LARGEST_STRIDE;
use crate::random_bounds::with_random_bounds;

const MAPPINGS: u32 = 500_000;
const FITS: u32 = 100_000;

const LARGEST: u64 = 2_147_483_647;
const MOST_PROCESSORS: u64 = 1_024;
const LARGEST_BLOCK: u64 = 65_536;

pub fn compare_mappings(comparison: &mut Comparison) -> Result<String, Difference> {
    let mut generator = Generator::new(1);
    for _ in 0..MAPPINGS {
        let m = random_mapping(&mut generator);
        let counting = Counting::cheapest(m.array());
        for index in random_elements(&mut generator, &m) {
            compare_element(comparison, &m, index, counting.place(index))?;
        }
        let processor = generator.below(m.processors as u64);
        compare_processor(comparison, &m, processor, counting.held(processor))?;
    }
    Ok(format!("{MAPPINGS} random mappings at full range"))
}

/// Templates that end with the last element's cell, and one cell before it.
pub fn compare_fits(comparison: &mut Comparison) -> Result<String, Difference> {
    let mut generator = Generator::new(2);
    for _ in 0..FITS {
        let mut m = random_mapping(&mut generator);
        m.cells = m.first_cell() + m.stride * (m.size - 1) + 1;
        compare_last_element(comparison, &m)?;
        m.cells -= 1;
        compare_too_short(comparison, &m)?;
    }
    Ok(format!(
        "{FITS} arrays on templates that just fit and just do not"
    ))
}

/// A mapping of one element or more. Each number is now small, now anywhere in
/// its range, and now near the end of it.
pub fn random_mapping(generator: &mut Generator) -> Mapping {
    let cells = generator.up_to(LARGEST);
    let processors = generator.up_to(MOST_PROCESSORS);
    let block = generator.up_to(LARGEST_BLOCK);
    let stride = random_stride(generator, block);
    let first_cell = generator.up_to(cells) - 1;
    let most = (cells - 1 - first_cell) / stride + 1;
    let size = generator.up_to(most);
    let numbers = [cells, processors, block, stride, first_cell, size, 0, 0];
    with_random_bounds(generator, &Mapping::of(numbers.map(|number| number as i64)))
}

/// The same with so many elements, 1 or more.
pub fn random_mapping_of(generator: &mut Generator, size: u64) -> Mapping {
    let processors = generator.up_to(MOST_PROCESSORS);
    let block = generator.up_to(LARGEST_BLOCK);
    let longest = (LARGEST - 1) / (size - 1).max(1);
    let stride = random_stride(generator, block).min(longest);
    let span = (size - 1) * stride;
    let first_cell = generator.up_to(LARGEST - span) - 1;
    let last_cell = first_cell + span;
    let cells = last_cell + generator.up_to(LARGEST - last_cell);
    let numbers = [cells, processors, block, stride, first_cell, size, 0, 0];
    with_random_bounds(generator, &Mapping::of(numbers.map(|number| number as i64)))
}

/// Small, up to the largest, or whole blocks if one is no longer than that, which leave
/// some processors without elements.
fn random_stride(generator: &mut Generator, block: u64) -> u64 {
    let largest = LARGEST_STRIDE as u64;
    match generator.below(3) {
        0 => generator.of_any_size(64),
        1 => generator.up_to(largest),
        _ => {
            let blocks = (largest / block).clamp(1, 64);
            largest.min(block * generator.of_any_size(blocks))
        }
    }
}

/// The last element, and some others.
fn random_elements(generator: &mut Generator, m: &Mapping) -> [i64; 3] {
    let size = m.size as u64;
    let numbers = [size - 1, generator.below(size), generator.below(size)];
    numbers.map(|number| m.array_lower + number as i64)
}

fn compare_element(comparison: &mut Comparison, m: &Mapping, index: i64, place: Place) -> Outcome {
    let (processor, address) = (place.processor as i64, place.address as i64);
    comparison.ownership(m, index, Owned::at(place))?;
    comparison.going_back(m, processor, address, Found::element(index))
}

fn compare_processor(
    comparison: &mut Comparison,
    m: &Mapping,
    processor: u64,
    elements: u64,
) -> Outcome {
    let (number, past_the_end) = (processor as i64, elements as i64);
    comparison.local_count(m, number, Counted::elements(elements))?;
    comparison.going_back(m, number, past_the_end, Found::refused(9))
}

/// The last element of all is the last one of its owner.
fn compare_last_element(comparison: &mut Comparison, m: &Mapping) -> Outcome {
    let last = m.array_lower + m.size - 1;
    let place = Counting::cheapest(m.array()).place(last);
    compare_element(comparison, m, last, place)?;
    compare_processor(comparison, m, place.processor, place.address + 1)
}

fn compare_too_short(comparison: &mut Comparison, m: &Mapping) -> Outcome {
    let refusal = if m.cells == 0 { 1 } else { 5 };
    comparison.ownership(m, m.array_lower, Owned::refused(refusal))?;
    comparison.going_back(m, 0, 0, Found::refused(refusal))?;
    comparison.local_count(m, 0, Counted::refused(refusal))
}
