//! Random sheets with one or a few bytes or lines damaged. Some are well formed
//! still; the others have the place that the definition of refusal 14 gives.

use std::sync::atomic::{AtomicU64, Ordering};

use super::form;
use super::print;
use super::program;
use super::random_sheets::random_sheet;
use super::sheet::Sheet;
use crate::comparison::{Comparison, Difference};
use crate::generator::Generator;
use crate::questions;
use crate::section_enumeration;

const SHEETS: u64 = 20_000;
const SEED: u64 = 14_000_000;
/// Longer sheets are damaged rarely, since each front of them is looked at.
const LONG: usize = 400;
/// Damage that makes a section longer is not kept.
const MOST_ELEMENTS: u64 = 10_000;

/// Bytes that sheets have, and some that look like them.
const BYTES: &[u8] = b"0123456789012346789--  \n\n\r\t+.,_\0\x0b\x2f\x3a\xa0\xff";

pub fn compare_sheets(comparison: &mut Comparison) -> Result<String, Difference> {
    let formed = AtomicU64::new(0);
    program::compare_cases(comparison, SHEETS, |comparison, case| {
        let text = damaged_sheet(&mut Generator::new(SEED + case));
        formed.fetch_add(form::is_well_formed(&text).into(), Ordering::Relaxed);
        program::compare(comparison, &text, &print::of_text(&text))
    })?;
    let formed = formed.into_inner();
    Ok(format!(
        "{SHEETS} damaged sheets, of which {formed} are well formed still"
    ))
}

fn damaged_sheet(generator: &mut Generator) -> Vec<u8> {
    loop {
        let sheet = random_sheet(generator).text();
        if sheet.len() > LONG && generator.below(10) > 0 {
            continue;
        }
        let mut text = sheet;
        let times = if generator.below(4) == 0 { 3 } else { 1 };
        for _ in 0..times {
            text = damaged(generator, &text);
        }
        if !form::is_well_formed(&text) || has_short_sections(&Sheet::of(&text)) {
            return text;
        }
    }
}

fn has_short_sections(sheet: &Sheet) -> bool {
    (0..sheet.sections.len()).all(|number| {
        let (mapping, triplet) = sheet.section(number);
        let refusal = questions::of_mapping_and_section(&mapping, &triplet);
        refusal != 0 || section_enumeration::count(&triplet) <= MOST_ELEMENTS
    })
}

fn damaged(generator: &mut Generator, text: &[u8]) -> Vec<u8> {
    if text.is_empty() {
        return vec![random_byte(generator)];
    }
    let place = generator.below(text.len() as u64) as usize;
    let (before, after) = text.split_at(place);
    let (byte, rest) = (after[0], &after[1..]);
    match generator.below(9) {
        0 | 1 => [before, &[random_byte(generator)], rest].concat(),
        2 => [before, &[random_byte(generator)], after].concat(),
        3 => [before, rest].concat(),
        4 => [before, &[byte], after].concat(),
        5 => before.to_vec(),
        6 => [text, &[random_byte(generator)]].concat(),
        7 => exchanged(text, place),
        _ => with_line_damaged(generator, text),
    }
}

fn random_byte(generator: &mut Generator) -> u8 {
    match generator.below(10) {
        0 => generator.below(256) as u8,
        _ => BYTES[generator.below(BYTES.len() as u64) as usize],
    }
}

/// The byte at a place, and the one after it, change places.
fn exchanged(text: &[u8], place: usize) -> Vec<u8> {
    let mut exchanged = text.to_vec();
    exchanged.swap(place, (place + 1).min(text.len() - 1));
    exchanged
}

/// A line is dropped, doubled, or has a count in its place.
fn with_line_damaged(generator: &mut Generator, text: &[u8]) -> Vec<u8> {
    let mut lines: Vec<Vec<u8>> = text
        .split_inclusive(|&byte| byte == b'\n')
        .map(<[u8]>::to_vec)
        .collect();
    let number = generator.below(lines.len() as u64) as usize;
    match generator.below(3) {
        0 => {
            lines.remove(number);
        }
        1 => lines.insert(number, lines[number].clone()),
        _ => lines[number] = format!("{}\n", generator.below(80)).into_bytes(),
    }
    lines.concat()
}
