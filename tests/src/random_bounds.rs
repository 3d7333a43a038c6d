//! Random lower bounds, near both ends of what is accepted, near 0, and anywhere.

use crate::generator::Generator;
use crate::library::Mapping;

const LARGEST: i64 = 2_147_483_647;

/// The mapping with these bounds, its first element on the cell on which it was.
pub fn with_bounds(m: &Mapping, array_lower: i64, template_lower: i64) -> Mapping {
    Mapping {
        offset: m.first_cell() + template_lower - m.stride * array_lower,
        array_lower,
        template_lower,
        ..*m
    }
}

pub fn with_random_bounds(generator: &mut Generator, m: &Mapping) -> Mapping {
    let template_lower = within(generator, -LARGEST, LARGEST - m.cells + 1);
    with_random_indices(generator, m, template_lower)
}

/// The array's lower bound is one that leaves its last index and the offset in
/// their ranges.
pub fn with_random_indices(generator: &mut Generator, m: &Mapping, template_lower: i64) -> Mapping {
    let first = m.first_cell() + template_lower;
    let lowest = -(LARGEST - first).div_euclid(m.stride);
    let highest = (first + LARGEST).div_euclid(m.stride);
    let most = LARGEST - m.size.max(1) + 1;
    let array_lower = within(generator, lowest.max(-LARGEST), highest.min(most));
    with_bounds(m, array_lower, template_lower)
}

/// Among the lowest numbers, among the highest, the nearest to 0, or anywhere.
pub fn within(generator: &mut Generator, low: i64, high: i64) -> i64 {
    let few = generator.below(3) as i64;
    match generator.below(4) {
        0 => (low + few).min(high),
        1 => (high - few).max(low),
        2 => (few - 1).clamp(low, high),
        _ => low + generator.below((high - low + 1) as u64) as i64,
    }
}
