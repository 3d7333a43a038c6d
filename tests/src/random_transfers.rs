//! Random assignments at full range, between random processors and between the
//! owners of random positions.

use crate::calls::CallTransfer;
use crate::comparison::{Comparison, Difference, Outcome};
use crate::generator::Generator;
use crate::library::Mapping;
use crate::random_mappings::random_mapping;
use crate::section_library::Triplet;
use crate::transfer_comparison::Transferring;
use crate::transfer_enumeration::{pair, Half};
use crate::transfer_library::{Side, Transfer};

const LARGEST: i64 = 2_147_483_647;

pub fn compare_short_assignments(comparison: &mut Comparison) -> Result<String, Difference> {
    compare_assignments(comparison, Generator::new(6), 100_000, 60)
}

pub fn compare_long_assignments(comparison: &mut Comparison) -> Result<String, Difference> {
    compare_assignments(comparison, Generator::new(7), 2_000, 6_000)
}

fn compare_assignments(
    comparison: &mut Comparison,
    mut generator: Generator,
    assignments: u32,
    most_positions: u64,
) -> Result<String, Difference> {
    for _ in 0..assignments {
        let [left, right] = random_sides(&mut generator, most_positions);
        let halves = [&left, &right].map(Half::of_any_size);
        let transfer = |sender, receiver| Transfer {
            left,
            right,
            sender,
            receiver,
        };
        compare_assignment(comparison, &mut generator, &halves, transfer)?;
    }
    Ok(format!(
        "{assignments} random assignments at full range, of up to {most_positions} positions"
    ))
}

/// Two sides with sections of the same count.
pub fn random_sides(generator: &mut Generator, most_positions: u64) -> [Side; 2] {
    let mappings = [random_mapping(generator), random_mapping(generator)];
    let [left, right] = mappings.map(|m| m.size as u64);
    let count = generator.up_to(left.min(right).min(most_positions));
    mappings.map(|m| Side {
        m,
        triplet: random_triplet(generator, &m, count),
    })
}

/// A section of so many elements, upwards or downwards. Its upper bound goes less
/// than a step beyond its last element.
fn random_triplet(generator: &mut Generator, m: &Mapping, count: u64) -> Triplet {
    let size = m.size as u64;
    let longest = if count == 1 {
        size
    } else {
        (size - 1) / (count - 1)
    };
    let length = generator.up_to(longest);
    let span = (count - 1) * length;
    let low = m.array_lower + generator.below(size - span) as i64;
    let high = low + span as i64;
    let beyond = generator.below(length) as i64;
    let (lower, upper, direction) = match generator.below(2) {
        0 => (low, high + beyond, 1),
        _ => (high, low - beyond, -1),
    };
    Triplet {
        lower,
        upper: upper.clamp(-LARGEST, LARGEST),
        step: direction * length as i64,
    }
}

/// Between the owners of a random position, and between random processors.
pub fn compare_assignment<T: CallTransfer>(
    comparison: &mut Comparison,
    generator: &mut Generator,
    [to, from]: &[Half; 2],
    transfer: impl Fn(i64, i64) -> T,
) -> Outcome {
    let position = generator.below(to.count());
    let pairs = [
        (from.owner(position), to.owner(position)),
        (
            generator.below(from.processors()),
            generator.below(to.processors()),
        ),
    ];
    for (sender, receiver) in pairs {
        let entries = pair(to, from, sender, receiver);
        let rooms = [(); 3].map(|()| (entries.len() + generator.below(12) as usize).max(1) - 1);
        let transfer = transfer(sender as i64, receiver as i64);
        comparison.transfers(&transfer, rooms, &Transferring::of(&entries, rooms))?;
    }
    Ok(())
}
