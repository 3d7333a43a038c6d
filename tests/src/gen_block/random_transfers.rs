//! Random assignments at full range, between sides of which each has a dealing of its
//! own.

use crate::comparison::{Comparison, Difference};
use crate::gen_block::answers::half;
use crate::gen_block::random_mappings::with_random_sizes;
use crate::gen_block::sizes::Sizes;
use crate::gen_block::transfer_library::{Side, Transfer};
use crate::generator::Generator;
use crate::random_transfers::{compare_assignment, random_sides};
use crate::transfer_library;

pub fn compare_short_assignments(comparison: &mut Comparison) -> Result<String, Difference> {
    compare_assignments(comparison, Generator::new(14), 40_000, 60)
}

pub fn compare_long_assignments(comparison: &mut Comparison) -> Result<String, Difference> {
    compare_assignments(comparison, Generator::new(15), 500, 6_000)
}

fn compare_assignments(
    comparison: &mut Comparison,
    mut generator: Generator,
    assignments: u32,
    most_positions: u64,
) -> Result<String, Difference> {
    for _ in 0..assignments {
        let sides = random_sides(&mut generator, most_positions);
        let [left, right] = sides.map(|side| with_random_dealing(&mut generator, &side));
        let halves = [&left, &right].map(half);
        let transfer = |sender, receiver| Transfer {
            left: left.clone(),
            right: right.clone(),
            sender,
            receiver,
        };
        compare_assignment(comparison, &mut generator, &halves, transfer)?;
    }
    Ok(format!(
        "{assignments} random assignments between dealings, of up to {most_positions} positions"
    ))
}

/// Two sides in three have sizes. What a dealing does not look at is at fault.
fn with_random_dealing(generator: &mut Generator, side: &transfer_library::Side) -> Side {
    let mut m = side.m;
    let mut dealing = 0;
    let mut sizes = Sizes::of_bytes(&[0x80; 7]);
    if generator.below(3) > 0 {
        let shift = generator.below(64);
        dealing = 1 << shift;
        m.block = 0;
        sizes = with_random_sizes(generator, m).sizes;
    }
    Side {
        m,
        dealing,
        sizes,
        triplet: side.triplet,
    }
}
