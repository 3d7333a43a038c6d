//! Random well-formed sheets: mappings and sections that are accepted, and ones
//! with a fault, so that each of questions 1 to 7 and 15 is met.

use std::sync::atomic::{AtomicU64, Ordering};

use super::print;
use super::program;
use super::sheet::{NamingLine, Sheet};
use crate::comparison::{Comparison, Difference};
use crate::generator::Generator;
use crate::library::Mapping;
use crate::questions::{self, LARGEST_STRIDE};
use crate::random_bounds::{with_bounds, with_random_bounds};
use crate::random_sections::random_triplet;
use crate::section_enumeration;
use crate::section_library::Triplet;

const SHEETS: u64 = 5_000;
const SEED: u64 = 6_000_000;
const MOST_LINES: u64 = 64;
const LARGEST: i64 = 2_147_483_647;
/// Sections with more elements are cut off.
const MOST_ELEMENTS: u64 = 1_500;
/// One number in so many is a fault.
const FAULTS: u64 = 25;
/// What a section on a sheet can meet, or 0.
const REFUSALS: [usize; 9] = [0, 1, 2, 3, 4, 5, 15, 6, 7];

pub fn compare_sheets(comparison: &mut Comparison) -> Result<String, Difference> {
    let met = [const { AtomicU64::new(0) }; 16];
    program::compare_cases(comparison, SHEETS, |comparison, case| {
        let sheet = random_sheet(&mut Generator::new(SEED + case));
        for number in 0..sheet.sections.len() {
            let (mapping, triplet) = sheet.section(number);
            let refusal = questions::of_mapping_and_section(&mapping, &triplet);
            met[refusal as usize].fetch_add(1, Ordering::Relaxed);
        }
        program::compare(comparison, &sheet.text(), &print::of_sheet(&sheet))
    })?;
    let met = met.map(AtomicU64::into_inner);
    let met = REFUSALS.map(|refusal| met[refusal]);
    if met.contains(&0) {
        return Err(Difference(format!(
            "sections that meet {REFUSALS:?} are {met:?}"
        )));
    }
    let (accepted, refused) = (met[0], &met[1..]);
    Ok(format!(
        "{SHEETS} random sheets with {accepted} accepted sections, and {refused:?} that meet {:?}",
        &REFUSALS[1..]
    ))
}

pub fn random_sheet(generator: &mut Generator) -> Sheet {
    let mut sheet = Sheet::default();
    for _ in 0..lines(generator) {
        sheet.templates.push(random_template(generator));
    }
    if !sheet.templates.is_empty() {
        for _ in 0..lines(generator) {
            let name = generator.below(sheet.templates.len() as u64) as usize;
            let numbers = random_array(generator, sheet.templates[name]);
            sheet.arrays.push(NamingLine { name, numbers });
        }
    }
    if !sheet.arrays.is_empty() {
        for _ in 0..lines(generator) {
            add_section(generator, &mut sheet);
        }
    }
    sheet
}

fn lines(generator: &mut Generator) -> u64 {
    match generator.below(40) {
        0 => generator.below(MOST_LINES + 1),
        1 => generator.within(10, 14),
        2 => 0,
        _ => generator.within(1, 4),
    }
}

/// The numbers T, p and k.
fn random_template(generator: &mut Generator) -> [i64; 3] {
    let cells = match generator.below(12) {
        0 => generator.up_to(LARGEST as u64),
        _ => generator.within(1, 400),
    };
    let processors = match generator.below(40) {
        0 => generator.up_to(1_024),
        1..6 => generator.within(1, 40),
        _ => generator.within(1, 6),
    };
    let block = match generator.below(40) {
        0 => generator.up_to(65_536),
        1..6 => generator.within(1, 100),
        _ => generator.within(1, 8),
    };
    let numbers = [cells, processors, block].map(|number| number as i64);
    spoilt(generator, numbers, [LARGEST, 1_024, 65_536])
}

/// The numbers a, b, n and the bounds; often as many elements as the template has
/// room for.
fn random_array(generator: &mut Generator, [cells, _, block]: [i64; 3]) -> [i64; 5] {
    let stride = match generator.below(20) {
        0 => generator.up_to(LARGEST_STRIDE as u64),
        1..4 => generator.within(1, 3) * block.clamp(1, LARGEST_STRIDE) as u64,
        4..10 => generator.within(1, 7),
        _ => 1,
    };
    let first_cell = match generator.below(20) {
        0 => generator.up_to(LARGEST as u64),
        1..10 => generator.below(20),
        _ => 0,
    };
    let room = cells.max(0) as u64;
    let most = room.saturating_sub(first_cell).div_ceil(stride);
    let size = match generator.below(20) {
        0 => most + 1,
        1..6 => generator.below(most + 1),
        _ => most,
    };
    let [a, b, n] = [stride, first_cell, size].map(|number| (number as i64).min(LARGEST));
    let m = random_bounds(generator, &Mapping::of([cells, 1, 1, a, b, n, 0, 0]));
    let b = m.offset.clamp(-LARGEST, LARGEST);
    let limits = [
        LARGEST_STRIDE,
        LARGEST,
        LARGEST,
        LARGEST - n + 1,
        LARGEST - cells + 1,
    ];
    spoilt(
        generator,
        [a, b, n, m.array_lower, m.template_lower],
        limits,
    )
}

/// Bounds of 0, small ones, or any, with the first element on the same cell.
fn random_bounds(generator: &mut Generator, m: &Mapping) -> Mapping {
    let mut small = || generator.within(0, 8) as i64 - 4;
    let (array_lower, template_lower) = (small(), small());
    match generator.below(4) {
        0 => *m,
        1 if questions::of_mapping(m) == 0 => with_random_bounds(generator, m),
        _ => with_bounds(m, array_lower, template_lower),
    }
}

/// Puts a fault in the place of a number now and then: 0, one that is negative,
/// or, where the sheet can have it, one past the limit.
fn spoilt<const N: usize>(
    generator: &mut Generator,
    numbers: [i64; N],
    limits: [i64; N],
) -> [i64; N] {
    let mut spoilt = numbers;
    for (number, limit) in spoilt.iter_mut().zip(limits) {
        if generator.below(FAULTS) == 0 {
            *number = match generator.below(3) {
                0 => 0,
                1 => -(generator.up_to(LARGEST as u64) as i64),
                _ => (limit + generator.of_any_size(1_000) as i64).clamp(-LARGEST, LARGEST),
            };
        }
    }
    spoilt
}

fn add_section(generator: &mut Generator, sheet: &mut Sheet) {
    let name = generator.below(sheet.arrays.len() as u64) as usize;
    let m = sheet.mapping(name);
    let triplet = match generator.below(10) {
        0 => Triplet::of([
            any_number(generator),
            any_number(generator),
            any_number(generator),
        ]),
        1 => near_triplet(generator, &m),
        _ if m.size < 1 => near_triplet(generator, &m),
        _ => random_triplet(generator, &m),
    };
    let numbers =
        [triplet.lower, triplet.upper, triplet.step].map(|number| number.clamp(-LARGEST, LARGEST));
    sheet.sections.push(NamingLine { name, numbers });
    let number = sheet.sections.len() - 1;
    cut_off(sheet, number);
}

/// Bounds near the array's ends and a small step, which may be 0.
fn near_triplet(generator: &mut Generator, m: &Mapping) -> Triplet {
    let bound = |generator: &mut Generator| {
        let beyond = generator.within(0, 10) as i64 - 5;
        let end = if generator.below(2) == 0 { 0 } else { m.size };
        m.array_lower + end + beyond
    };
    let (lower, upper) = (bound(generator), bound(generator));
    let step = generator.within(0, 14) as i64 - 7;
    Triplet::of([lower, upper, step])
}

/// A number of any size and sign, or 0.
fn any_number(generator: &mut Generator) -> i64 {
    let size = generator.up_to(LARGEST as u64) as i64;
    size * (generator.below(3) as i64 - 1)
}

/// Leaves the first elements of an accepted section that has too many.
fn cut_off(sheet: &mut Sheet, number: usize) {
    let (mapping, triplet) = sheet.section(number);
    let is_accepted = questions::of_mapping_and_section(&mapping, &triplet) == 0;
    if is_accepted && section_enumeration::count(&triplet) > MOST_ELEMENTS {
        let last = triplet.lower + (MOST_ELEMENTS as i64 - 1) * triplet.step;
        sheet.sections[number].numbers[1] = last;
    }
}
