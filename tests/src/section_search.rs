//! Steps and places of large sections. Steps are found course by course, and
//! places either so or element by element: a template has at most 2^31 / pk
//! courses, and the owners repeat after at most pk elements.

use crate::counting::{course, gcd, Counting};
use crate::enumeration::Array;
use crate::processor_list::List;
use crate::section_enumeration::{count, distance, Section, Step, Walk};
use crate::section_library::Triplet;

pub fn section(array: Array, triplet: Triplet) -> Section {
    Section {
        array,
        triplet,
        walk: walk(&array, &triplet),
    }
}

pub fn walk(array: &Array, triplet: &Triplet) -> Walk {
    if count(triplet) < 2 {
        return Walk::NoStep;
    }
    let (distance, course) = (distance(array, triplet), course(array));
    let common = gcd(distance, course);
    if common >= array.block {
        return Walk::OneStep(Step {
            cells: course / common * distance,
            courses: distance / common,
            column: 0,
        });
    }
    let (up, down) = first_times(distance % course, course, array.block - 1);
    let (onward, back) = (up * distance, down * distance);
    Walk::TwoSteps {
        onward: Step {
            cells: onward,
            courses: onward / course,
            column: onward % course,
        },
        back: Step {
            cells: back,
            courses: back / course + 1,
            column: course - back % course,
        },
    }
}

/// How many times a number of cells, less than a course, must be taken to come
/// 1 to `most` cells past the start of a course, and as near before its end.
/// More than half a course is taken as going backwards.
fn first_times(cells: u64, course: u64, most: u64) -> (u64, u64) {
    if cells > course / 2 {
        let (up, down) = first_times(course - cells, course, most);
        return (down, up);
    }
    let past_start = |start| multiple_within(cells, start + 1, start + most);
    let before_end = |end| multiple_within(cells, end - most, end - 1);
    let up = (0..).find_map(|number| past_start(number * course));
    let down = (1..).find_map(|number| before_end(number * course));
    let found = "some multiple comes so near";
    (up.expect(found) / cells, down.expect(found) / cells)
}

fn multiple_within(cells: u64, low: u64, high: u64) -> Option<u64> {
    let multiple = low.next_multiple_of(cells);
    (multiple <= high).then_some(multiple)
}

/// The lowest position, from `start` on, whose element the processor owns; or
/// the count. Found the cheaper way.
pub fn place(section: &Section, processor: u64, start: u64) -> u64 {
    if period(section) < courses_left(section, start) {
        place_by_elements(section, processor, start)
    } else {
        place_by_courses(section, processor, start)
    }
}

/// After this many positions the owners repeat.
fn period(section: &Section) -> u64 {
    let course = course(&section.array);
    course / gcd(distance(&section.array, &section.triplet), course)
}

fn courses_left(section: &Section, start: u64) -> u64 {
    let count = section.count();
    if start >= count {
        return 0;
    }
    let cells = section.cell(start).abs_diff(section.cell(count - 1));
    cells / course(&section.array) + 1
}

pub fn place_by_elements(section: &Section, processor: u64, start: u64) -> u64 {
    let is_owned = |&position: &u64| section.owner(position) == processor;
    let end = section.count().min(start + period(section));
    (start..end).find(is_owned).unwrap_or(section.count())
}

/// In each course, looks at the first position that reaches the processor's
/// cells there.
pub fn place_by_courses(section: &Section, processor: u64, start: u64) -> u64 {
    let count = section.count();
    if start >= count {
        return count;
    }
    let (first, last) = (section.cell(start), section.cell(count - 1));
    let course = course(&section.array);
    let lowest = processor * section.array.block;
    let highest = lowest + section.array.block - 1;
    let beyond = |gap: u64| start + gap.div_ceil(distance(&section.array, &section.triplet));
    let is_owned = |&position: &u64| position < count && section.owner(position) == processor;
    let place = if section.triplet.step > 0 {
        (first / course..=last / course)
            .map(|number| beyond((number * course + lowest).saturating_sub(first)))
            .find(is_owned)
    } else {
        (last / course..=first / course)
            .rev()
            .map(|number| beyond(first.saturating_sub(number * course + highest)))
            .find(is_owned)
    };
    place.unwrap_or(count)
}

/// At most so many entries of the processor's list, from a place on.
pub fn list(section: &Section, processor: u64, start: u64, most: usize) -> List {
    let counting = Counting::cheapest(section.array);
    let mut entries = Vec::new();
    let mut end = start;
    while end != section.count() && entries.len() < most {
        let address = counting.place(section.element(end)).address;
        entries.push(section.entry(end, address));
        end = place(section, processor, end + 1);
    }
    List {
        entries,
        end,
        is_whole: end == section.count(),
    }
}
