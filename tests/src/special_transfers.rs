//! Transfers with numbers at and past every limit: faults stand on both sides at
//! once, and the refusal must name the first, those of the left before those of
//! the right.

use crate::comparison::{Comparison, Difference, Outcome};
use crate::questions::LARGEST_STRIDE;
use crate::special_numbers::{combine, exchange_pairs};
use crate::transfer_answers;
use crate::transfer_library::{Side, Transfer};

const LARGEST: i64 = 2_147_483_647;

/// A lawful number and one at fault for each number of the left side: the
/// mapping 96 3 4 5 2 19 0 0, the section 18:0:-3 of 7 elements.
const LEFT: [&[i64]; 11] = [
    &[96, 0],
    &[3, 1_025],
    &[4, 0],
    &[5, LARGEST_STRIDE + 1],
    &[2, -1],
    &[19, 20],
    &[0, LARGEST - 17],
    &[0, -LARGEST - 1],
    &[18, 19],
    &[0, LARGEST + 1],
    &[-3, 0],
];
/// The same for the right side: 40 2 3 1 8 36 -5 -1, and -2:16:3 of 7 elements.
const RIGHT: [&[i64]; 11] = [
    &[40, LARGEST + 1],
    &[2, 0],
    &[3, 65_537],
    &[1, 0],
    &[8, -LARGEST - 1],
    &[36, -1],
    &[-5, -LARGEST - 1],
    &[-1, LARGEST - 38],
    &[-2, -LARGEST - 1],
    &[16, 31],
    &[3, 0],
];

/// At the limits of processors, counts and lists: the upper bounds of sections
/// of 6, 7 and 8 elements.
const LEFT_AT_LIMITS: [&[i64]; 11] = [
    &[96],
    &[3],
    &[4],
    &[5],
    &[2],
    &[19],
    &[0],
    &[0],
    &[18],
    &[-2, -1, 0, 1, 3],
    &[-3],
];
const RIGHT_AT_LIMITS: [&[i64]; 11] = [
    &[40],
    &[2],
    &[3],
    &[1],
    &[8],
    &[36],
    &[-5],
    &[-1],
    &[-2],
    &[15, 16, 18, 19],
    &[3],
];
const SENDERS: &[i64] = &[i64::MIN, -1, 0, 1, 2, 3, 1 << 32, i64::MAX];
const RECEIVERS: &[i64] = &[i64::MIN, -1, 0, 1, 2, 3, 1 << 32, i64::MAX];
const ROOMS: &[i64] = &[0, 1, 2, 3, 4];

/// Transfers in which two numbers at a time are exchanged for others: the left
/// side, the right side, sender and receiver.
const LAWFUL: [([i64; 11], [i64; 11], [i64; 2]); 2] = [
    (
        [96, 3, 4, 5, 2, 19, 0, 0, 18, 0, -3],
        [40, 2, 3, 1, 8, 36, -5, -1, -2, 16, 3],
        [1, 0],
    ),
    (
        [
            LARGEST,
            1_024,
            65_536,
            LARGEST_STRIDE,
            0,
            524_288,
            0,
            0,
            0,
            524_287,
            524_287,
        ],
        [
            2,
            1,
            1,
            1,
            LARGEST,
            2,
            -LARGEST,
            0,
            1 - LARGEST,
            -LARGEST,
            -1,
        ],
        [0, 1_023],
    ),
];

/// Two numbers of each side that stay lawful while all others are combined: stride
/// and the array's bound on one side, offset and the template's bound on the other.
const LAWFUL_NUMBERS: [([usize; 2], [usize; 2]); 2] = [([3, 6], [4, 7]), ([4, 7], [3, 6])];

pub fn compare_combinations(comparison: &mut Comparison) -> Result<String, Difference> {
    for (on_left, on_right) in LAWFUL_NUMBERS {
        let (left, right) = (lawful_in(LEFT, on_left), lawful_in(RIGHT, on_right));
        let faults = both(left, right, [&[1, 2], &[0, -1]]);
        combine(comparison, faults, |comparison, numbers| {
            transfers(comparison, numbers, [2, 1, 3])
        })?;
    }
    let ends = [SENDERS, RECEIVERS, ROOMS, ROOMS, ROOMS];
    let limits = both(LEFT_AT_LIMITS, RIGHT_AT_LIMITS, ends);
    combine(comparison, limits, with_rooms)?;
    Ok("transfers with faults on both sides, and at their limits, in all combinations".to_string())
}

/// The choices of a side, with the lawful number alone in some places.
fn lawful_in(side: [&'static [i64]; 11], places: [usize; 2]) -> [&'static [i64]; 11] {
    let mut choices = side;
    for place in places {
        choices[place] = &side[place][..1];
    }
    choices
}

/// The left's, the right's, and then the rest.
fn both<T: Copy, const E: usize, const N: usize>(
    left: [T; 11],
    right: [T; 11],
    ends: [T; E],
) -> [T; N] {
    let all: Vec<T> = left.into_iter().chain(right).chain(ends).collect();
    all.try_into().ok().expect("two sides and their ends")
}

pub fn compare_exchanges(comparison: &mut Comparison) -> Result<String, Difference> {
    for (left, right, ends) in LAWFUL {
        exchange_pairs(
            comparison,
            both(left, right, ends),
            |comparison, numbers| transfers(comparison, numbers, [2, 2, 2]),
        )?;
    }
    Ok("transfers far and near, any two numbers at a time".to_string())
}

fn with_rooms(comparison: &mut Comparison, numbers: [i64; 27]) -> Outcome {
    let (numbers, rooms) = numbers.split_at(24);
    let numbers = numbers.try_into().expect("there are 24 numbers");
    let rooms = [rooms[0], rooms[1], rooms[2]].map(|room| room as usize);
    transfers(comparison, numbers, rooms)
}

fn transfers(comparison: &mut Comparison, numbers: [i64; 24], rooms: [usize; 3]) -> Outcome {
    let side = |from: usize| Side::of(std::array::from_fn(|place| numbers[from + place]));
    let transfer = Transfer {
        left: side(0),
        right: side(11),
        sender: numbers[22],
        receiver: numbers[23],
    };
    let expected = transfer_answers::transfers(&transfer, rooms);
    comparison.transfers(&transfer, rooms, &expected)?;
    Ok(())
}
