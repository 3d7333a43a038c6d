//! Numbers at and past every limit, in pairs and in all combinations: several
//! faults stand together, and the refusal must name the first.

use crate::answers;
use crate::comparison::{Comparison, Difference, Outcome};
use crate::library::Mapping;
use crate::questions::LARGEST_STRIDE;

const LARGEST: i64 = 2_147_483_647;

/// A call, given the eight numbers of its mapping and then its own.
pub type Call<const N: usize> = fn(&mut Comparison, [i64; N]) -> Outcome;

/// For each number of a mapping its limits, what lies past them, and a number
/// within: together 96 3 4 5 2 19 0 0, in which 20 elements would not fit.
pub const MAPPINGS: [&[i64]; 8] = [
    &[i64::MIN, 0, 1, 96, LARGEST, LARGEST + 1, i64::MAX],
    &[i64::MIN, 0, 1, 3, 1_024, 1_025],
    &[0, 1, 4, 65_536, 65_537, i64::MAX],
    &[
        i64::MIN,
        0,
        1,
        5,
        LARGEST_STRIDE,
        LARGEST_STRIDE + 1,
        i64::MAX,
    ],
    &[-LARGEST - 1, -LARGEST, -1, 2, LARGEST, LARGEST + 1],
    &[i64::MIN, -1, 0, 1, 19, 20, LARGEST, LARGEST + 1, i64::MAX],
    &[-LARGEST - 1, 0],
    &[0, LARGEST + 1],
];
const INDICES: &[i64] = &[i64::MIN, -1, 0, 18, 19, LARGEST, i64::MAX];
const PROCESSORS: &[i64] = &[i64::MIN, -1, 0, 2, 3, 1_023, 1_024, i64::MAX];

/// Fewer for going back, which takes a number more.
const MAPPINGS_BACK: [&[i64]; 8] = [
    &[0, 1, 96, LARGEST, LARGEST + 1],
    &[0, 3, 1_024, 1_025],
    &[0, 4, 65_536, 65_537],
    &[0, 1, 5, LARGEST_STRIDE, LARGEST_STRIDE + 1],
    &[-LARGEST - 1, -1, 0, 2, LARGEST],
    &[-1, 0, 1, 19, 20, LARGEST, LARGEST + 1],
    &[0, LARGEST + 1],
    &[-LARGEST - 1, 0],
];
const PROCESSORS_BACK: &[i64] = &[-1, 0, 2, 3, 1_023, 1_024];
const ADDRESSES: &[i64] = &[i64::MIN, -1, 0, 5, 6, 7, LARGEST, i64::MAX];

/// Mappings in which two numbers at a time are exchanged for others.
pub const LAWFUL: [[i64; 8]; 7] = [
    [96, 3, 4, 5, 2, 19, 0, 0],
    [LARGEST, 1_024, 65_536, 1, 0, LARGEST, 0, 0],
    [LARGEST, 1, 1, 1, LARGEST - 1, 1, 0, 0],
    [1, 1, 1, LARGEST_STRIDE, 0, 1, 0, 0],
    [96, 3, 4, 1, LARGEST, 19, -LARGEST, 0],
    [96, 3, 4, 1, -LARGEST, 19, LARGEST - 18, -18],
    [96, 3, 4, 5, LARGEST, 19, -19, LARGEST - 95],
];

/// The limits of all numbers, and numbers that seem lawful once high bits are lost.
const EXCHANGES: &[i64] = &[
    i64::MIN,
    i64::MIN + 1,
    -(1 << 32),
    -(1 << 32) + 1,
    -LARGEST - 2,
    -LARGEST - 1,
    -LARGEST,
    -65_536,
    -1,
    0,
    1,
    2,
    3,
    5,
    18,
    19,
    1_023,
    1_024,
    1_025,
    LARGEST_STRIDE,
    LARGEST_STRIDE + 1,
    65_535,
    65_536,
    65_537,
    LARGEST - 1,
    LARGEST,
    LARGEST + 1,
    (1 << 32) - 1,
    1 << 32,
    (1 << 32) + 1,
    (1 << 32) + 3,
    (1 << 62) + 1,
    i64::MAX - 1,
    i64::MAX,
];

pub fn compare_combinations(comparison: &mut Comparison) -> Result<String, Difference> {
    let [t, p, k, a, b, n, la, lt] = MAPPINGS;
    let elements = [t, p, k, a, b, n, la, lt, INDICES];
    combine(comparison, elements, ownership)?;
    let counts = [t, p, k, a, b, n, la, lt, PROCESSORS];
    combine(comparison, counts, local_count)?;
    let [t, p, k, a, b, n, la, lt] = MAPPINGS_BACK;
    let back = [t, p, k, a, b, n, la, lt, PROCESSORS_BACK, ADDRESSES];
    combine(comparison, back, going_back)?;
    Ok("numbers at and past their limits, in all combinations".to_string())
}

pub fn compare_exchanges(comparison: &mut Comparison) -> Result<String, Difference> {
    for [t, p, k, a, b, n, la, lt] in LAWFUL {
        exchange_pairs(comparison, [t, p, k, a, b, n, la, lt, la], ownership)?;
        exchange_pairs(comparison, [t, p, k, a, b, n, la, lt, 0], local_count)?;
        exchange_pairs(comparison, [t, p, k, a, b, n, la, lt, 0, 0], going_back)?;
    }
    Ok("numbers far and near, any two at a time".to_string())
}

/// Makes the call with each choice of one value for each number.
pub fn combine<const N: usize>(
    comparison: &mut Comparison,
    values: [&[i64]; N],
    call: impl Fn(&mut Comparison, [i64; N]) -> Outcome,
) -> Outcome {
    let combinations: usize = values.iter().map(|choices| choices.len()).product();
    for combination in 0..combinations {
        let mut rest = combination;
        let numbers = values.map(|choices| {
            let choice = rest % choices.len();
            rest /= choices.len();
            choices[choice]
        });
        call(comparison, numbers)?;
    }
    Ok(())
}

/// Makes the call with each pair of its numbers exchanged, for each pair of values.
pub fn exchange_pairs<const N: usize>(
    comparison: &mut Comparison,
    lawful: [i64; N],
    call: Call<N>,
) -> Outcome {
    for first in 0..N {
        for second in first + 1..N {
            let mut choices = lawful.each_ref().map(std::slice::from_ref);
            choices[first] = EXCHANGES;
            choices[second] = EXCHANGES;
            combine(comparison, choices, call)?;
        }
    }
    Ok(())
}

pub fn ownership(comparison: &mut Comparison, numbers: [i64; 9]) -> Outcome {
    let [t, p, k, a, b, n, la, lt, index] = numbers;
    let m = Mapping::of([t, p, k, a, b, n, la, lt]);
    comparison.ownership(&m, index, answers::ownership(&m, index))
}

pub fn local_count(comparison: &mut Comparison, numbers: [i64; 9]) -> Outcome {
    let [t, p, k, a, b, n, la, lt, processor] = numbers;
    let m = Mapping::of([t, p, k, a, b, n, la, lt]);
    comparison.local_count(&m, processor, answers::local_count(&m, processor))
}

pub fn going_back(comparison: &mut Comparison, numbers: [i64; 10]) -> Outcome {
    let [t, p, k, a, b, n, la, lt, processor, address] = numbers;
    let m = Mapping::of([t, p, k, a, b, n, la, lt]);
    let expected = answers::going_back(&m, processor, address);
    comparison.going_back(&m, processor, address, expected)
}
