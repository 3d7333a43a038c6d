//! Lower bounds at and past every limit, in all combinations with the numbers that
//! decide about them: the offset, the size, the template's cells, and indices.

use crate::comparison::{Comparison, Difference};
use crate::questions::LARGEST_STRIDE;
use crate::special_numbers::{combine, going_back, local_count, ownership};
use crate::special_sections::{fill, first_place, section_steps};

const LARGEST: i64 = 2_147_483_647;

/// Some leave the first element on cell 0, with offset and bounds at their ends: with
/// stride 1 the offset LARGEST and the bounds -LARGEST 0, or -LARGEST and LARGEST - 18
/// -18, or -LARGEST and 0 -LARGEST; with stride 5 LARGEST and -19 LARGEST - 95. With the
/// largest stride the first cell of an array without elements is almost 2^43.
pub const MAPPINGS: [&[i64]; 8] = [
    &[0, 96, LARGEST],
    &[3],
    &[4],
    &[0, 1, 5, LARGEST_STRIDE],
    &[
        i64::MIN,
        -LARGEST - 1,
        -LARGEST,
        1 - LARGEST,
        -1,
        0,
        2,
        LARGEST - 1,
        LARGEST,
        LARGEST + 1,
        i64::MAX,
    ],
    &[-1, 0, 1, 19, 20, LARGEST, LARGEST + 1],
    &[
        i64::MIN,
        -LARGEST - 1,
        -LARGEST,
        -19,
        -1,
        0,
        1,
        LARGEST - 18,
        LARGEST - 17,
        LARGEST,
        LARGEST + 1,
        i64::MAX,
    ],
    &[
        i64::MIN,
        -LARGEST - 1,
        -LARGEST,
        1 - LARGEST,
        -18,
        -1,
        0,
        1,
        2,
        LARGEST - 95,
        LARGEST - 94,
        LARGEST,
        LARGEST + 1,
        i64::MAX,
    ],
];
const INDICES: &[i64] = &[
    i64::MIN,
    -LARGEST - 1,
    -LARGEST,
    18 - LARGEST,
    19 - LARGEST,
    -1,
    0,
    18,
    19,
    LARGEST - 19,
    LARGEST - 18,
    LARGEST,
    LARGEST + 1,
    i64::MAX,
];
const PROCESSORS: &[i64] = &[-1, 0, 2, 3];
const PROCESSORS_BACK: &[i64] = &[0, 3];
const ADDRESSES: &[i64] = &[-1, 0, 6, 7];

/// Fewer for sections, which take more numbers.
const MAPPINGS_OF_SECTIONS: [&[i64]; 8] = [
    &[96, LARGEST],
    &[3],
    &[4],
    &[1, 5],
    &[-LARGEST - 1, -LARGEST, 0, LARGEST, LARGEST + 1],
    &[0, 19, 20],
    &[-LARGEST - 1, -LARGEST, -19, 0, LARGEST - 18, LARGEST - 17],
    &[-LARGEST - 1, -18, 0, LARGEST - 95, LARGEST - 94],
];
const LOWER_BOUNDS: &[i64] = &[-LARGEST - 1, -LARGEST, -19, -1, 18, LARGEST - 18, LARGEST];
const UPPER_BOUNDS: &[i64] = &[-LARGEST, 18 - LARGEST, -1, 19, LARGEST, LARGEST + 1];
const STEPS: &[i64] = &[-4, 0, 7];
const PLACES: &[i64] = &[0, 3];
const QUOTAS: &[i64] = &[3];

pub fn compare_mappings(comparison: &mut Comparison) -> Result<String, Difference> {
    let [t, p, k, a, b, n, la, lt] = MAPPINGS;
    let elements = [t, p, k, a, b, n, la, lt, INDICES];
    combine(comparison, elements, ownership)?;
    let counts = [t, p, k, a, b, n, la, lt, PROCESSORS];
    combine(comparison, counts, local_count)?;
    let back = [t, p, k, a, b, n, la, lt, PROCESSORS_BACK, ADDRESSES];
    combine(comparison, back, going_back)?;
    Ok("bounds at and past their limits, in all combinations".to_string())
}

pub fn compare_sections(comparison: &mut Comparison) -> Result<String, Difference> {
    let (l, h, s) = (LOWER_BOUNDS, UPPER_BOUNDS, STEPS);
    let [t, p, k, a, b, n, la, lt] = MAPPINGS_OF_SECTIONS;
    let steps = [t, p, k, a, b, n, la, lt, l, h, s];
    combine(comparison, steps, section_steps)?;
    let (q, place, quota) = (PROCESSORS_BACK, PLACES, QUOTAS);
    let places = [t, p, k, a, b, n, la, lt, l, h, s, q];
    combine(comparison, places, first_place)?;
    let fills = [t, p, k, a, b, n, la, lt, l, h, s, q, place, quota];
    combine(comparison, fills, fill)?;
    Ok("sections with bounds at and past their limits, in all combinations".to_string())
}
