//! Fills that must be refused: lawful ones in which numbers are exchanged for
//! others that are at fault.

use crate::generator::Generator;
use crate::library::Mapping;
use crate::questions::LARGEST_STRIDE;
use crate::section_enumeration::{count, element};
use crate::section_library::{Fill, Triplet};

const LARGEST: i64 = 2_147_483_647;
pub const MOST_FAULTS: u64 = 3;
const OF_A_SECTION: usize = 8;

/// Exchanges a number of a fill for one that is at fault in the lawful fill.
type Fault = fn(&mut Generator, &Fill, &mut Fill);

/// A fault for each question of a fill, and for each half of 5, but for 3 and 10, which
/// go by the dealing. The first ones are those of the mapping and the section.
const OF_ANY_DEALING: [Fault; 10] = [
    |generator, _, fill| fill.m.cells = outside(generator, 1, LARGEST),
    |generator, _, fill| fill.m.processors = outside(generator, 1, 1_024),
    spoil_alignment,
    spoil_size,
    spoil_bounds,
    spoil_first_cell,
    spoil_triplet,
    spoil_elements,
    |generator, lawful, fill| fill.processor = outside(generator, 0, lawful.m.processors - 1),
    |generator, _, fill| fill.quota = outside(generator, 3, 1_000_000),
];

/// The lawful fill with one to three faults.
pub fn spoil(generator: &mut Generator, lawful: &Fill) -> Fill {
    let mut fill = *lawful;
    for _ in 0..generator.within(1, MOST_FAULTS) {
        match generator.below(OF_ANY_DEALING.len() as u64 + 2) {
            0 => fill.m.block = outside(generator, 1, 65_536),
            1 => {
                let owner = |index| lawful.m.array().owner(index);
                spoil_place(generator, lawful, &mut fill, owner);
            }
            _ => spoil_number(generator, lawful, &mut fill),
        }
    }
    fill
}

/// Exchanges a number that every dealing has.
pub fn spoil_number(generator: &mut Generator, lawful: &Fill, fill: &mut Fill) {
    spoil_one_of(&OF_ANY_DEALING, generator, lawful, fill);
}

/// Exchanges a number of the mapping or of the section.
pub fn spoil_section(generator: &mut Generator, lawful: &Fill, fill: &mut Fill) {
    spoil_one_of(&OF_ANY_DEALING[..OF_A_SECTION], generator, lawful, fill);
}

fn spoil_one_of(faults: &[Fault], generator: &mut Generator, lawful: &Fill, fill: &mut Fill) {
    let fault = faults[generator.below(faults.len() as u64) as usize];
    fault(generator, lawful, fill);
}

/// A number below `low` or above `high`: next to them, far away, or one that
/// seems lawful once its high bits are lost.
pub fn outside(generator: &mut Generator, low: i64, high: i64) -> i64 {
    match generator.below(6) {
        0 => low - 1,
        1 => high + 1,
        2 => low - (1 << 32),
        3 => low + (1 << 32),
        4 => i64::MIN,
        _ => i64::MAX,
    }
}

fn spoil_alignment(generator: &mut Generator, _: &Fill, fill: &mut Fill) {
    match generator.below(2) {
        0 => fill.m.stride = outside(generator, 1, LARGEST_STRIDE),
        _ => fill.m.offset = outside(generator, -LARGEST, LARGEST),
    }
}

/// A size out of range, or the first that does not fit the template.
fn spoil_size(generator: &mut Generator, lawful: &Fill, fill: &mut Fill) {
    let m = &lawful.m;
    fill.m.size = match generator.below(2) {
        0 => outside(generator, 0, LARGEST),
        _ => (m.cells - 1 - m.first_cell()) / m.stride + 2,
    };
}

/// A bound out of range, or the first that takes the last index or the last
/// declared cell out of it.
fn spoil_bounds(generator: &mut Generator, lawful: &Fill, fill: &mut Fill) {
    let Mapping { cells, size, .. } = lawful.m;
    match generator.below(4) {
        0 => fill.m.array_lower = outside(generator, -LARGEST, LARGEST),
        1 => fill.m.template_lower = outside(generator, -LARGEST, LARGEST),
        2 => fill.m.array_lower = LARGEST - size + 2,
        _ => fill.m.template_lower = LARGEST - cells + 2,
    }
}

/// The first element sits on the cell before cell 0.
fn spoil_first_cell(generator: &mut Generator, lawful: &Fill, fill: &mut Fill) {
    let too_far = lawful.m.first_cell() + 1;
    match generator.below(2) {
        0 => fill.m.offset = lawful.m.offset - too_far,
        _ => fill.m.template_lower = lawful.m.template_lower + too_far,
    }
}

fn spoil_triplet(generator: &mut Generator, _: &Fill, fill: &mut Fill) {
    match generator.below(4) {
        0 => fill.triplet.lower = outside(generator, -LARGEST, LARGEST),
        1 => fill.triplet.upper = outside(generator, -LARGEST, LARGEST),
        2 => fill.triplet.step = outside(generator, -LARGEST, LARGEST),
        _ => fill.triplet.step = 0,
    }
}

/// A section of one element beside the array, or whose last element is the
/// first beyond it.
fn spoil_elements(generator: &mut Generator, lawful: &Fill, fill: &mut Fill) {
    let Triplet { lower, step, .. } = lawful.triplet;
    let (before, after) = (
        lawful.m.array_lower - 1,
        lawful.m.array_lower + lawful.m.size,
    );
    let beside = [before, after][generator.below(2) as usize];
    if count(&lawful.triplet) == 0 || generator.below(2) == 0 {
        fill.triplet = Triplet {
            lower: beside,
            upper: beside,
            step,
        };
    } else {
        let end = if step > 0 { after } else { before };
        fill.triplet = Triplet {
            lower,
            upper: end + step - step.signum(),
            step,
        };
    }
}

/// A place outside the section, or of an element that another processor owns.
pub fn spoil_place(
    generator: &mut Generator,
    lawful: &Fill,
    fill: &mut Fill,
    owner: impl Fn(i64) -> u64,
) {
    let count = count(&lawful.triplet);
    let position = generator.below(count + 1);
    let is_owned = position == count || {
        let index = element(&lawful.triplet, position);
        owner(index) == lawful.processor as u64
    };
    fill.place = if is_owned {
        outside(generator, 0, count as i64)
    } else {
        position as i64
    };
}
