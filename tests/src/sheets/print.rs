//! What `list` is to print, by the enumeration. Large arrays are searched instead.

use std::fmt::Write;

use super::form;
use super::sheet::Sheet;
use crate::counting::course;
use crate::enumeration::{enumerate, Array};
use crate::library::Mapping;
use crate::processor_list::{tries, List};
use crate::questions;
use crate::section_enumeration::Section;
use crate::section_library::Triplet;
use crate::section_search;

/// Arrays of more elements, and courses of more cells, are not enumerated.
const LARGEST_ENUMERATED: u64 = 2_000_000;

/// The print of any text.
pub fn of_text(text: &[u8]) -> String {
    if form::is_well_formed(text) {
        of_sheet(&Sheet::of(text))
    } else {
        of_malformed(form::place(text))
    }
}

pub fn of_malformed(place: usize) -> String {
    format!("E 14 {place}\n")
}

pub fn of_sheet(sheet: &Sheet) -> String {
    let mut print = String::new();
    for number in 0..sheet.sections.len() {
        write!(print, "S {number} ").expect("a string takes any text");
        let (mapping, triplet) = sheet.section(number);
        match questions::of_mapping_and_section(&mapping, &triplet) {
            0 => add_lists(&mut print, &mapping, triplet),
            refusal => add_line(&mut print, format!("E {refusal}")),
        }
    }
    print
}

fn add_lists(print: &mut String, mapping: &Mapping, triplet: Triplet) {
    let array = mapping.array();
    let (count, lists) = lists(array, triplet);
    add_line(print, count.to_string());
    for (processor, list) in lists.iter().enumerate() {
        let entries = &list.entries;
        write!(print, "{processor} {} {}", entries.len(), tries(entries))
            .expect("a string takes any text");
        for entry in entries {
            write!(print, " {}", entry.address).expect("a string takes any text");
        }
        print.push('\n');
    }
}

fn add_line(print: &mut String, line: String) {
    print.push_str(&line);
    print.push('\n');
}

/// The section's count and each processor's list.
fn lists(array: Array, triplet: Triplet) -> (u64, Vec<List>) {
    let processors = 0..array.processors;
    if array.size.max(course(&array)) <= LARGEST_ENUMERATED {
        let section = Section::new(array, triplet);
        let enumeration = enumerate(&array);
        let list = |processor| section.list(processor, &enumeration);
        return (section.count(), processors.map(list).collect());
    }
    let section = section_search::section(array, triplet);
    let list = |processor| {
        let first = section_search::place(&section, processor, 0);
        section_search::list(&section, processor, first, usize::MAX)
    };
    (section.count(), processors.map(list).collect())
}
