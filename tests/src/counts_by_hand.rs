//! Counts found by hand, case by case as the Fortran text reads a section: forward,
//! backward, empty.

use crate::comparison::{Comparison, Difference};
use crate::library::Mapping;
use crate::section_library::{Steps, Triplet};

const LARGEST: i64 = 2_147_483_647;

/// One processor with blocks of one cell, so that the one step is the stride's size.
/// The arrays are A(0:12), A(1:2147483647) and A(-2147483647:-1).
const SMALL: [i64; 8] = [13, 1, 1, 1, 0, 13, 0, 0];
const FROM_ONE: [i64; 8] = [LARGEST, 1, 1, 1, -1, LARGEST, 1, 0];
const TO_MINUS_ONE: [i64; 8] = [LARGEST, 1, 1, 1, LARGEST, LARGEST, -LARGEST, 0];

/// An array, a section, and its count.
type Counted = ([i64; 8], [i64; 3], i64);

/// s is above 0, and l not above h. In each group h is an element, one past it, one
/// short of the next, and the next; or l itself.
const FORWARD: [Counted; 21] = [
    (SMALL, [0, 8, 4], 3),
    (SMALL, [0, 9, 4], 3),
    (SMALL, [0, 11, 4], 3),
    (SMALL, [0, 12, 4], 4),
    (SMALL, [3, 5, 3], 1),
    (SMALL, [3, 6, 3], 2),
    (SMALL, [5, 5, 1], 1),
    (SMALL, [5, 5, 3], 1),
    (SMALL, [12, 12, LARGEST], 1),
    (SMALL, [12, LARGEST, LARGEST], 1),
    (FROM_ONE, [1, LARGEST, 1], LARGEST),
    (FROM_ONE, [1, LARGEST, 2], 1_073_741_824),
    (FROM_ONE, [1, LARGEST, LARGEST - 2], 2),
    (FROM_ONE, [1, LARGEST, LARGEST - 1], 2),
    (FROM_ONE, [1, LARGEST, LARGEST], 1),
    (FROM_ONE, [LARGEST, LARGEST, 1], 1),
    (TO_MINUS_ONE, [-LARGEST, -LARGEST, LARGEST], 1),
    (TO_MINUS_ONE, [-LARGEST, -1, 1], LARGEST),
    (TO_MINUS_ONE, [-LARGEST, -1, LARGEST - 1], 2),
    (TO_MINUS_ONE, [-LARGEST, -1, LARGEST], 1),
    (TO_MINUS_ONE, [-1, LARGEST - 2, LARGEST], 1),
];

/// s is below 0, and l not below h: the same, mirrored.
const BACKWARD: [Counted; 21] = [
    (SMALL, [12, 4, -4], 3),
    (SMALL, [12, 3, -4], 3),
    (SMALL, [12, 1, -4], 3),
    (SMALL, [12, 0, -4], 4),
    (SMALL, [9, 7, -3], 1),
    (SMALL, [9, 6, -3], 2),
    (SMALL, [5, 5, -1], 1),
    (SMALL, [5, 5, -3], 1),
    (SMALL, [0, 0, -LARGEST], 1),
    (SMALL, [0, 1 - LARGEST, -LARGEST], 1),
    (TO_MINUS_ONE, [-1, -LARGEST, -1], LARGEST),
    (TO_MINUS_ONE, [-1, -LARGEST, -2], 1_073_741_824),
    (TO_MINUS_ONE, [-1, -LARGEST, 2 - LARGEST], 2),
    (TO_MINUS_ONE, [-1, -LARGEST, 1 - LARGEST], 2),
    (TO_MINUS_ONE, [-1, -LARGEST, -LARGEST], 1),
    (TO_MINUS_ONE, [-LARGEST, -LARGEST, -1], 1),
    (FROM_ONE, [LARGEST, LARGEST, -LARGEST], 1),
    (FROM_ONE, [LARGEST, 1, -1], LARGEST),
    (FROM_ONE, [LARGEST, 1, 1 - LARGEST], 2),
    (FROM_ONE, [LARGEST, 1, -LARGEST], 1),
    (FROM_ONE, [1, 2 - LARGEST, -LARGEST], 1),
];

/// h lies the other way, near and far; the ends are asked of no array.
const EMPTY: [Counted; 14] = [
    (SMALL, [5, 4, 3], 0),
    (SMALL, [5, 4, 1], 0),
    (SMALL, [5, 2, 3], 0),
    (SMALL, [5, 1, 3], 0),
    (SMALL, [4, 5, -3], 0),
    (SMALL, [4, 5, -1], 0),
    (SMALL, [4, 7, -3], 0),
    (SMALL, [4, 8, -3], 0),
    (SMALL, [LARGEST, LARGEST - 1, LARGEST], 0),
    (SMALL, [-LARGEST, 1 - LARGEST, -LARGEST], 0),
    (FROM_ONE, [LARGEST, -LARGEST, 1], 0),
    (FROM_ONE, [LARGEST, -LARGEST, LARGEST], 0),
    (TO_MINUS_ONE, [-LARGEST, LARGEST, -1], 0),
    (TO_MINUS_ONE, [-LARGEST, LARGEST, -LARGEST], 0),
];

/// Sections of three elements and of 4,294,967,295, the most that pass question 6. No
/// array has them all.
const BEYOND: [([i64; 8], [i64; 3]); 4] = [
    (TO_MINUS_ONE, [-LARGEST, LARGEST, LARGEST]),
    (TO_MINUS_ONE, [-LARGEST, LARGEST, 1]),
    (FROM_ONE, [LARGEST, -LARGEST, -LARGEST]),
    (FROM_ONE, [LARGEST, -LARGEST, -1]),
];

pub fn compare_cases(comparison: &mut Comparison) -> Result<String, Difference> {
    for (numbers, section, count) in FORWARD.into_iter().chain(BACKWARD).chain(EMPTY) {
        let (m, triplet) = (Mapping::of(numbers), Triplet::of(section));
        comparison.section_steps(&m, &triplet, counted(count, triplet.step))?;
    }
    for (numbers, section) in BEYOND {
        let (m, triplet) = (Mapping::of(numbers), Triplet::of(section));
        comparison.section_steps(&m, &triplet, Steps::refused(7))?;
    }
    Ok("counts forward, backward and empty, by hand".to_string())
}

/// Two elements or more lie one step of |s| cells apart, which are as many courses.
fn counted(count: i64, s: i64) -> Steps {
    let (steps, cells) = if count < 2 { (0, 0) } else { (1, s.abs()) };
    Steps {
        refusal: 0,
        count,
        steps,
        cells,
        courses: cells,
        column: 0,
        return_cells: 0,
        return_courses: 0,
        return_column: 0,
    }
}
