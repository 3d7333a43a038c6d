//! Which texts are well-formed sheets and which begin one, from the form that
//! document 01 gives, an array's line with its two bounds. A text is held against
//! the sheets of every number of lines, so nothing here reads byte by byte as a
//! reader does. The place of refusal 14 is found by its definition: each front of
//! the text is tried.

use std::iter;

/// How many numbers a line of each part has, beside the name: T p k, then a b n and
/// the bounds, then l h s.
const PARTS: [usize; 3] = [3, 5, 3];
const MOST_LINES: i64 = 64;
const LARGEST: i64 = 2_147_483_647;
const BLANK: u8 = b' ';
const NEWLINE: u8 = b'\n';

/// What stands before a blank or a newline.
#[derive(Clone, Copy)]
enum Field {
    Count(i64),
    Name { below: i64 },
    Number,
}

impl Field {
    fn has_text(self, text: &[u8]) -> bool {
        match (self, number_of(text)) {
            (_, None) => false,
            (Field::Count(count), Some(number)) => number == count,
            (Field::Name { below }, Some(number)) => (0..below).contains(&number),
            (Field::Number, Some(number)) => number.abs() <= LARGEST,
        }
    }

    /// Whether some text of it begins so. A number's front is a number too, or a
    /// digit makes it one.
    fn begins_with(self, front: &[u8]) -> bool {
        let begins = |number: i64| number.to_string().as_bytes().starts_with(front);
        match self {
            Field::Count(count) => begins(count),
            Field::Name { below } => (0..below).any(begins),
            Field::Number => self.has_text(front) || self.has_text(&[front, b"1"].concat()),
        }
    }
}

/// A text is a number's if the number is written so: there is no other sign, no
/// leading zero and no minus zero.
fn number_of(text: &[u8]) -> Option<i64> {
    let number: i64 = str::from_utf8(text).ok()?.parse().ok()?;
    (number.to_string().as_bytes() == text).then_some(number)
}

/// How a text and sheets of one form go together.
#[derive(Clone, Copy, PartialEq, Eq, PartialOrd, Ord)]
enum Fit {
    /// No such sheet begins with the text.
    No,
    /// Some such sheet begins with it and goes on.
    Front,
    /// It is such a sheet.
    Whole,
}

/// The fields of a part with so many lines of so many numbers, each with the byte
/// after it. Each line of a later part names one of the lines of the part before.
fn fields(count: i64, numbers: usize, names: Option<i64>) -> impl Iterator<Item = (Field, u8)> {
    let name = names.map(|below| (Field::Name { below }, BLANK));
    let others = iter::repeat_n((Field::Number, BLANK), numbers - 1);
    let last = iter::once((Field::Number, NEWLINE));
    let line = move |_| name.into_iter().chain(others.clone()).chain(last.clone());
    iter::once((Field::Count(count), NEWLINE)).chain((0..count).flat_map(line))
}

/// Holds a text against the parts from here on, over every number of lines.
fn fit_parts(text: &[u8], parts: &[usize], names: Option<i64>) -> Fit {
    let Some((&numbers, later)) = parts.split_first() else {
        return if text.is_empty() { Fit::Whole } else { Fit::No };
    };
    let fit = |count| match fit_part(text, fields(count, numbers, names)) {
        Ok(rest) => fit_parts(rest, later, Some(count)),
        Err(fit) => fit,
    };
    (0..=MOST_LINES).map(fit).max().unwrap_or(Fit::No)
}

/// What of the text comes after a part, or how they go together if that is decided.
/// Where the text ends inside the part, the parts after it may have no lines; its
/// own lines must all have texts.
fn fit_part(text: &[u8], fields: impl Iterator<Item = (Field, u8)>) -> Result<&[u8], Fit> {
    let mut fields = fields;
    let mut rest = text;
    while let Some((field, after)) = fields.next() {
        let Some(end) = rest.iter().position(|byte| [BLANK, NEWLINE].contains(byte)) else {
            let goes_on =
                field.begins_with(rest) && fields.all(|(later, _)| later.begins_with(b""));
            return Err(if goes_on { Fit::Front } else { Fit::No });
        };
        if !field.has_text(&rest[..end]) || rest[end] != after {
            return Err(Fit::No);
        }
        rest = &rest[end + 1..];
    }
    Ok(rest)
}

fn fit(text: &[u8]) -> Fit {
    fit_parts(text, &PARTS, None)
}

pub fn is_well_formed(text: &[u8]) -> bool {
    fit(text) == Fit::Whole
}

/// The place of refusal 14 in a text that is not well formed: the length of the
/// longest front of it that some well-formed sheet has.
pub fn place(text: &[u8]) -> usize {
    let is_front = |&length: &usize| fit(&text[..length]) != Fit::No;
    let longest = (0..=text.len()).rev().find(is_front);
    longest.expect("every sheet begins with no bytes")
}
