//! Malformed sheets whose places were found by hand.

use super::form;
use super::print;
use super::program;
use crate::comparison::{Comparison, Difference, Outcome};

/// A sheet of three parts, one of whose lines has every kind of number.
const WHOLE: &str = "2\n12 3 2\n-2147483647 0 2147483647\n\
    11\n1 1 0 12 0 0\n0 3 -1 4 -5 1\n0 1 0 12 0 -2147483647\n0 1 0 12 0 0\n0 1 0 12 0 0\n\
    0 1 0 12 0 0\n0 1 0 12 0 0\n0 1 0 12 0 0\n0 1 0 12 0 0\n0 1 0 12 0 0\n1 1 0 12 2147483647 0\n\
    3\n0 0 11 5\n10 11 -1 -5\n9 0 -10 0\n";

/// Bytes that no sheet has.
const STRANGE: &[u8] = b"\0\t\x0b\x0c\r!+,./:\x7f\x80\xa0\xb2\xff";

const ONE_TEMPLATE: &str = "1\n12 3 2\n";
const ONE_ARRAY: &str = "1\n12 3 2\n1\n0 1 0 12 0 0\n";

/// A front of a sheet, what follows it, and how many bytes of that are in place.
type Case = (&'static str, &'static str, usize);

/// The first number of a template.
const NUMBERS: [Case; 30] = [
    ("1\n", "-", 1),
    ("1\n", "-0", 1),
    ("1\n", "-0 3 2\n0\n0\n", 1),
    ("1\n", "-01", 1),
    ("1\n", "--1", 1),
    ("1\n", "- 1", 1),
    ("1\n", "-\n", 1),
    ("1\n", "00", 1),
    ("1\n", "01 3 2\n0\n0\n", 1),
    ("1\n", "0-", 1),
    ("1\n", "1-1", 1),
    ("1\n", "+1", 0),
    ("1\n", " 1", 0),
    ("1\n", "\n", 0),
    ("1\n", "12  3", 3),
    ("1\n", "12\t3", 2),
    ("1\n", "12\n", 2),
    ("1\n", "12 3\n", 4),
    ("1\n", "12 3 2 \n", 6),
    ("1\n", "12 3 2 1\n", 6),
    ("1\n", "12 3 2\r\n", 6),
    ("1\n", "2147483647", 10),
    ("1\n", "2147483648 3 2\n0\n0\n", 9),
    ("1\n", "2147483650", 9),
    ("1\n", "3000000000", 9),
    ("1\n", "9999999999", 9),
    ("1\n", "10000000000", 10),
    ("1\n", "21474836470", 10),
    ("1\n", "-2147483648", 10),
    ("1\n", "-21474836470", 11),
];

/// Counts, names and the sheet's end.
const OTHERS: [Case; 50] = [
    ("", "", 0),
    ("", "-0\n", 0),
    ("", "-1\n", 0),
    ("", "00\n", 1),
    ("", "01\n", 1),
    ("", "65\n", 1),
    ("", "70\n", 1),
    ("", "7 ", 1),
    ("", "100\n", 2),
    ("", "640", 2),
    ("", "0\r\n0\r\n0\r\n", 1),
    ("", "0 0 0\n", 1),
    ("", "0", 1),
    ("", "0\n", 2),
    ("", "0\n0\n0", 5),
    ("0\n0\n0\n", "\n", 0),
    ("0\n0\n0\n", " ", 0),
    ("0\n0\n0\n", "0\n", 0),
    ("0\n0\n0\n", "\0", 0),
    // with no templates there are no arrays, and with no arrays no sections
    ("0\n", "1\n0 1 0 12 0 0\n0\n", 0),
    ("0\n", "-", 0),
    ("0\n", "00", 1),
    ("1\n12 3 2\n0\n", "1\n0 0 11 5\n", 0),
    ("1\n12 3 2\n0\n", "64", 0),
    (ONE_TEMPLATE, "65\n", 1),
    (ONE_TEMPLATE, "-1\n", 0),
    (ONE_TEMPLATE, "1\n1 1 0 12 0 0\n", 2),
    (ONE_TEMPLATE, "1\n-0 1 0 12 0 0\n", 2),
    (ONE_TEMPLATE, "1\n00 1 0 12 0 0\n", 3),
    (ONE_TEMPLATE, "1\n0\n", 3),
    (ONE_TEMPLATE, "2\n0 1 0 12 0 0\n0\n", 16),
    // an array has both bounds, and nothing after them
    (ONE_TEMPLATE, "1\n0 1 0 12\n0\n", 10),
    (ONE_TEMPLATE, "1\n0 1 0 12 0\n0\n", 12),
    (ONE_TEMPLATE, "1\n0 1 0 12 \n", 11),
    (ONE_TEMPLATE, "1\n0 1 0 12  0 0\n", 11),
    (ONE_TEMPLATE, "1\n0 1 0 12 0 \n", 13),
    (ONE_TEMPLATE, "1\n0 1 0 12 0 0 0\n", 14),
    (ONE_TEMPLATE, "1\n0 1 0 12 -0 0\n", 12),
    (ONE_TEMPLATE, "1\n0 1 0 12 0 -0\n", 14),
    (ONE_TEMPLATE, "1\n0 1 0 12 01 0\n", 12),
    (ONE_TEMPLATE, "1\n0 1 0 12 2147483648 0\n", 20),
    (ONE_TEMPLATE, "1\n0 1 0 12 -2147483648 0\n", 21),
    (ONE_TEMPLATE, "1\n0 1 0 12 0 2147483648\n", 22),
    (ONE_TEMPLATE, "1\n0 1 0 12 0 -2147483648\n", 23),
    (ONE_ARRAY, "65\n", 1),
    (ONE_ARRAY, "1\n1 0 11 5\n", 2),
    (ONE_ARRAY, "1\n-1 0 11 5\n", 2),
    (ONE_ARRAY, "1\n0 0 11 5", 10),
    (ONE_ARRAY, "1\n0 0 11 5\n\n", 11),
    (ONE_ARRAY, "2\n0 0 11 5\n", 11),
];

pub fn compare_places(comparison: &mut Comparison) -> Result<String, Difference> {
    for (front, rest, in_place) in NUMBERS.into_iter().chain(OTHERS) {
        compare(comparison, &[front, rest].concat(), front.len() + in_place)?;
    }
    compare_counts(comparison)?;
    compare_names(comparison)?;
    compare_last_bytes(comparison)?;
    compare_early_ends(comparison)?;
    compare_strange_bytes(comparison)?;
    Ok("malformed sheets, by hand".to_string())
}

/// The place found by hand is the one that the definition gives, too.
fn compare_bytes(comparison: &mut Comparison, text: &[u8], place: usize) -> Outcome {
    let words = || format!("of the sheet \"{}\"", text.escape_ascii());
    comparison.same(form::is_well_formed(text), false, || {
        format!("good form {}", words())
    })?;
    comparison.same(form::place(text), place, || format!("place {}", words()))?;
    program::compare(comparison, text, &print::of_malformed(place))
}

fn compare(comparison: &mut Comparison, text: &str, place: usize) -> Outcome {
    compare_bytes(comparison, text.as_bytes(), place)
}

/// Every count up to 99, in each part. Above 64 the second digit fails.
fn compare_counts(comparison: &mut Comparison) -> Outcome {
    for front in ["", ONE_TEMPLATE, ONE_ARRAY] {
        for count in 0..=99 {
            let text = format!("{front}{count}");
            let place = if count > 64 {
                front.len() + 1
            } else {
                text.len()
            };
            compare(comparison, &text, place)?;
        }
    }
    Ok(())
}

/// Names of two digits, in arrays and in sections, where so many can be named.
fn compare_names(comparison: &mut Comparison) -> Outcome {
    for names in [1, 2, 9, 10, 11, 12, 21, 63, 64] {
        let templates = format!("{names}\n{}", "1 1 1\n".repeat(names));
        let arrays = format!("{ONE_TEMPLATE}{names}\n{}", "0 1 0 12 0 0\n".repeat(names));
        for front in [templates + "1\n", arrays + "1\n"] {
            for name in (0..=13).chain(19..=22).chain(60..=66).chain(98..=101) {
                compare_name(comparison, &front, name, names)?;
            }
        }
    }
    Ok(())
}

/// The place is after the longest front of the name that some name has.
fn compare_name(comparison: &mut Comparison, front: &str, name: usize, names: usize) -> Outcome {
    let digits = name.to_string();
    let is_name = |&length: &usize| digits[..length].parse().is_ok_and(|n: usize| n < names);
    let named = (1..=digits.len()).take_while(is_name).count();
    compare(comparison, &format!("{front}{digits}"), front.len() + named)
}

/// Every byte where a count begins: only a digit goes on, and only 0 where
/// nothing can be named. After the last line no byte goes on.
fn compare_last_bytes(comparison: &mut Comparison) -> Outcome {
    let fronts = [
        ("", "0123456789"),
        ("0\n", "0"),
        ("0\n0\n", "0"),
        (ONE_TEMPLATE, "0123456789"),
        ("1\n12 3 2\n0\n", "0"),
        (ONE_ARRAY, "0123456789"),
        (WHOLE, ""),
    ];
    for (front, going_on) in fronts {
        for byte in 0..=255 {
            let place = front.len() + usize::from(going_on.as_bytes().contains(&byte));
            compare_bytes(comparison, &[front.as_bytes(), &[byte]].concat(), place)?;
        }
    }
    Ok(())
}

/// A sheet that ends early has its length as place; the whole one is well formed.
fn compare_early_ends(comparison: &mut Comparison) -> Outcome {
    let well_formed = form::is_well_formed(WHOLE.as_bytes());
    comparison.same(well_formed, true, || "form of the whole sheet".into())?;
    (0..WHOLE.len()).try_for_each(|length| compare(comparison, &WHOLE[..length], length))
}

/// A byte that no sheet has fails wherever it stands.
fn compare_strange_bytes(comparison: &mut Comparison) -> Outcome {
    for place in 0..WHOLE.len() {
        let mut text = WHOLE.as_bytes().to_vec();
        text[place] = STRANGE[place % STRANGE.len()];
        compare_bytes(comparison, &text, place)?;
    }
    Ok(())
}
