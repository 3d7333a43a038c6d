//! Sheets and lists of the largest sizes, bytes past every sheet's end, and
//! sheets that arrive in pieces.

use super::form;
use super::print;
use super::program;
use super::sheet::{NamingLine, Sheet};
use crate::comparison::{Comparison, Difference, Outcome};

const LARGEST: i64 = 2_147_483_647;
/// The length of the longest sheet.
const LONGEST: usize = 8_841;
const MEGABYTE: usize = 1 << 20;

pub fn compare_inputs(comparison: &mut Comparison) -> Result<String, Difference> {
    let longest = longest_sheet();
    let text = longest.text();
    comparison.same(text.len(), LONGEST, || "length of the longest sheet".into())?;
    comparison.same(form::is_well_formed(&text), true, || "its form".into())?;
    program::compare(comparison, &text, &print::of_sheet(&longest))?;
    compare_longer(comparison, &text)?;
    compare_pieces(comparison, &text, &print::of_sheet(&longest))?;
    compare_short_pieces(comparison)?;
    Ok("the longest sheet, longer inputs, and inputs in pieces".to_string())
}

/// Every count, name and number has as many bytes as it can have.
fn longest_sheet() -> Sheet {
    Sheet {
        templates: vec![[-LARGEST; 3]; 64],
        arrays: (0..64).map(longest_line).collect(),
        sections: (0..64).map(longest_line).collect(),
    }
}

fn longest_line<const N: usize>(line: usize) -> NamingLine<N> {
    NamingLine {
        name: 10 + line % 54,
        numbers: [-LARGEST; N],
    }
}

/// Bytes after the longest sheet, and a megabyte after any front of it.
fn compare_longer(comparison: &mut Comparison, text: &[u8]) -> Outcome {
    for more in [1, 2, 3, 100, 60_000, MEGABYTE] {
        for byte in [b'0', b'\n', b' ', 0, 255] {
            let longer = [text, &vec![byte; more]].concat();
            program::compare(comparison, &longer, &print::of_malformed(LONGEST))?;
        }
    }
    for place in [0, 1, 2, 3, 100, 2_306, 6_340, 8_840] {
        let longer = [&text[..place], &[b'!'; MEGABYTE]].concat();
        program::compare(comparison, &longer, &print::of_malformed(place))?;
    }
    program::compare(comparison, &[b'0'; MEGABYTE], &print::of_malformed(1))?;
    program::compare(comparison, &[b'1'; MEGABYTE], &print::of_malformed(2))?;
    let sheets = b"0\n0\n0\n".repeat(MEGABYTE / 6);
    program::compare(comparison, &sheets, &print::of_malformed(6))
}

/// A pipe may hand over a part of the sheet at a time.
fn compare_pieces(comparison: &mut Comparison, text: &[u8], expected: &str) -> Outcome {
    for size in [1_000, 4_096, 8_840] {
        let pieces: Vec<&[u8]> = text.chunks(size).collect();
        program::compare_pieces(comparison, &pieces, expected)?;
    }
    let late = [text, b"\n"];
    program::compare_pieces(comparison, &late, &print::of_malformed(LONGEST))
}

fn compare_short_pieces(comparison: &mut Comparison) -> Outcome {
    let text = b"1\n12 3 2\n1\n0 1 0 12 0 0\n1\n0 0 11 5\n";
    let expected = "S 0 3\n0 1 1 0\n1 0 0\n2 2 3 1 2\n";
    for size in [1, 2, 5, 30] {
        let pieces: Vec<&[u8]> = text.chunks(size).collect();
        program::compare_pieces(comparison, &pieces, expected)?;
    }
    Ok(())
}

/// Lists whose entries or tries are more than one fill takes, and lists that end
/// at or next to a size that a buffer may have.
pub fn compare_long_lists(comparison: &mut Comparison) -> Result<String, Difference> {
    let lists = [
        ([2_200_000, 1, 8, 1, 0, 1_100_001, 0, 0], [0, 1_100_000, 1]),
        (
            [1_999_999, 1, 8, 1, -1, 1_999_999, 1, 0],
            [1_999_999, 1, -1],
        ),
        (
            [1_500_000, 2, 64, 1, 9, 1_400_000, -4, 2],
            [-4, 1_399_995, 2],
        ),
        ([1_999_999, 3, 5, 1, 0, 1_999_999, 0, 0], [1, 1_999_998, 1]),
        ([1_999_999, 2, 7, 3, 1, 666_666, 0, 0], [666_665, 0, -1]),
    ];
    for (mapping, section) in lists {
        compare_list(comparison, mapping, section)?;
    }
    for size in (10..=17)
        .map(|digits| 1 << digits)
        .chain([10_000, 1_000_000])
    {
        for entries in size - 1..=size + 1 {
            let mapping = [2 * entries, 2, 4, 1, 0, 2 * entries, 0, 0];
            compare_list(comparison, mapping, [0, 2 * entries - 1, 1])?;
        }
    }
    Ok("lists of up to 1,999,999 entries".to_string())
}

fn compare_list(comparison: &mut Comparison, mapping: [i64; 8], section: [i64; 3]) -> Outcome {
    let [cells, processors, block, array @ ..] = mapping;
    let sheet = Sheet {
        templates: vec![[cells, processors, block]],
        arrays: vec![naming_first(array)],
        sections: vec![naming_first(section)],
    };
    program::compare(comparison, &sheet.text(), &print::of_sheet(&sheet))
}

fn naming_first<const N: usize>(numbers: [i64; N]) -> NamingLine<N> {
    NamingLine { name: 0, numbers }
}
