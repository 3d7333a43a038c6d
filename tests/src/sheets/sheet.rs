//! What a sheet holds, and its text.

use crate::library::Mapping;
use crate::section_library::Triplet;

/// A line that begins with the number of a template or an array.
#[derive(Clone, Copy)]
pub struct NamingLine<const N: usize> {
    pub name: usize,
    pub numbers: [i64; N],
}

/// An array's line has a, b, n and the two lower bounds, a section's l, h and s.
pub type ArrayLine = NamingLine<5>;
pub type SectionLine = NamingLine<3>;

/// The lines of each part. Nothing says that a mapping or a section is accepted.
#[derive(Clone, Default)]
pub struct Sheet {
    pub templates: Vec<[i64; 3]>,
    pub arrays: Vec<ArrayLine>,
    pub sections: Vec<SectionLine>,
}

impl Sheet {
    pub fn text(&self) -> Vec<u8> {
        let mut lines = vec![vec![self.templates.len() as i64]];
        lines.extend(self.templates.iter().map(|numbers| numbers.to_vec()));
        lines.push(vec![self.arrays.len() as i64]);
        lines.extend(self.arrays.iter().map(NamingLine::all_numbers));
        lines.push(vec![self.sections.len() as i64]);
        lines.extend(self.sections.iter().map(NamingLine::all_numbers));
        lines.iter().flat_map(|line| line_text(line)).collect()
    }

    /// The sheet of a well-formed text.
    pub fn of(text: &[u8]) -> Sheet {
        let mut lines = text.split(|&byte| byte == b'\n').map(numbers_of);
        let mut part = || -> Vec<Vec<i64>> {
            let count = lines.next().expect("a part begins with a line")[0];
            lines.by_ref().take(count as usize).collect()
        };
        Sheet {
            templates: part().iter().map(|line| all_of(line)).collect(),
            arrays: part().iter().map(|line| NamingLine::of(line)).collect(),
            sections: part().iter().map(|line| NamingLine::of(line)).collect(),
        }
    }

    /// An array with the template that it names.
    pub fn mapping(&self, array: usize) -> Mapping {
        let array = self.arrays[array];
        let [cells, processors, block] = self.templates[array.name];
        let [a, b, n, la, lt] = array.numbers;
        Mapping::of([cells, processors, block, a, b, n, la, lt])
    }

    /// A section with the array and the template that it names.
    pub fn section(&self, number: usize) -> (Mapping, Triplet) {
        let section = self.sections[number];
        (self.mapping(section.name), Triplet::of(section.numbers))
    }
}

impl<const N: usize> NamingLine<N> {
    fn of(line: &[i64]) -> NamingLine<N> {
        NamingLine {
            name: line[0] as usize,
            numbers: all_of(&line[1..]),
        }
    }

    fn all_numbers(&self) -> Vec<i64> {
        [&[self.name as i64], &self.numbers[..]].concat()
    }
}

fn all_of<const N: usize>(numbers: &[i64]) -> [i64; N] {
    numbers.try_into().expect("a line has its part's numbers")
}

fn line_text(numbers: &[i64]) -> Vec<u8> {
    let texts: Vec<String> = numbers.iter().map(i64::to_string).collect();
    (texts.join(" ") + "\n").into_bytes()
}

fn numbers_of(line: &[u8]) -> Vec<i64> {
    let text = str::from_utf8(line).expect("a line is of digits, minuses and blanks");
    let numbers = text.split_terminator(' ').map(str::parse);
    numbers
        .collect::<Result<_, _>>()
        .expect("a line is of numbers")
}
