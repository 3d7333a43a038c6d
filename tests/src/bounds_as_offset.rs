//! A mapping with bounds answers as the one with bounds 0 whose first element sits
//! on the same cell, the indices counted from 0. Here the library is held to itself.

use crate::comparison::{Comparison, Difference, Outcome};
use crate::generator::Generator;
use crate::library::{self, Found, Mapping};
use crate::random_bounds::with_bounds;
use crate::random_mappings::random_mapping;
use crate::random_transfers::random_sides;
use crate::section_library::{self, Fill, Triplet};
use crate::transfer_library::{self, Side, Transfer};

const MAPPINGS: u32 = 50_000;
const TRANSFERS: u32 = 20_000;
const MOST_POSITIONS: u64 = 30;

pub fn compare_mappings(comparison: &mut Comparison) -> Result<String, Difference> {
    let mut generator = Generator::new(9);
    for _ in 0..MAPPINGS {
        let m = random_mapping(&mut generator);
        let index = m.array_lower + generator.below(m.size as u64) as i64;
        compare_elements(comparison, &m, index)?;
        compare_sections(comparison, &mut generator, &m, index)?;
    }
    for _ in 0..TRANSFERS {
        let sides = random_sides(&mut generator, MOST_POSITIONS);
        compare_transfers(comparison, &mut generator, sides)?;
    }
    Ok(format!(
        "{MAPPINGS} mappings and {TRANSFERS} assignments with bounds, and the same with bounds 0"
    ))
}

fn with_bounds_0(m: &Mapping) -> Mapping {
    with_bounds(m, 0, 0)
}

/// An element there and back, the first and the last one, and those beside them.
fn compare_elements(comparison: &mut Comparison, m: &Mapping, index: i64) -> Outcome {
    let zero_based = with_bounds_0(m);
    let (first, end) = (m.array_lower, m.array_lower + m.size);
    for index in [first - 1, first, index, end - 1, end] {
        let owned = library::ownership(&zero_based, index - first);
        comparison.ownership(m, index, owned)?;
        let (processor, address) = (owned.processor.into(), owned.address.into());
        let found = library::going_back(&zero_based, processor, address);
        let expected = match found.refusal {
            0 => Found::element(i64::from(found.index) + first),
            refusal => Found::refused(refusal),
        };
        comparison.going_back(m, processor, address, expected)?;
        let counted = library::local_count(&zero_based, processor);
        comparison.local_count(m, processor, counted)?;
    }
    Ok(())
}

/// From an element to one of the array's ends: count, steps, the owner's first
/// place, and what a fill answers and writes.
fn compare_sections(
    comparison: &mut Comparison,
    generator: &mut Generator,
    m: &Mapping,
    index: i64,
) -> Outcome {
    let length = generator.of_any_size(m.size as u64) as i64;
    let (end, step) = match generator.below(2) {
        0 => (m.array_lower, -length),
        _ => (m.array_lower + m.size - 1, length),
    };
    let (lower, upper) = (index, end);
    let triplet = Triplet { lower, upper, step };
    let (zero_based, zero_based_triplet) = (with_bounds_0(m), counted_from_0(m, &triplet));
    let steps = section_library::section_steps(&zero_based, &zero_based_triplet);
    comparison.section_steps(m, &triplet, steps)?;
    let processor = generator.below(m.processors as u64) as i64;
    let placed = section_library::first_place(&zero_based, &zero_based_triplet, processor);
    comparison.first_place(m, &triplet, processor, placed)?;
    let mut fill = Fill {
        m: *m,
        triplet,
        processor,
        place: placed.place.into(),
        quota: 20,
    };
    let mut lists = [[0u8; 40]; 2];
    let answer = section_library::fill(&fill, Some(&mut lists[0]));
    (fill.m, fill.triplet) = (zero_based, zero_based_triplet);
    let expected = section_library::fill(&fill, Some(&mut lists[1]));
    comparison.same(answer, expected, || format!("{fill:?}, and {m:?}"))?;
    comparison.same(lists[0], lists[1], || {
        format!("list of {fill:?}, and {m:?}")
    })
}

fn counted_from_0(m: &Mapping, triplet: &Triplet) -> Triplet {
    Triplet {
        lower: triplet.lower - m.array_lower,
        upper: triplet.upper - m.array_lower,
        step: triplet.step,
    }
}

/// The upper bound is the last element, so that it is in range counted from 0 too.
fn compare_transfers(
    comparison: &mut Comparison,
    generator: &mut Generator,
    sides: [Side; 2],
) -> Outcome {
    let [left, right] = sides.map(|side| ending_with_last(&side));
    let transfer = Transfer {
        left,
        right,
        sender: generator.below(right.m.processors as u64) as i64,
        receiver: generator.below(left.m.processors as u64) as i64,
    };
    let [left, right] = [left, right].map(|side| Side {
        m: with_bounds_0(&side.m),
        triplet: counted_from_0(&side.m, &side.triplet),
    });
    let zero_based = Transfer {
        left,
        right,
        ..transfer
    };
    let [answer, expected] = [transfer, zero_based].map(|transfer| {
        let mut lists = [[-1; MOST_POSITIONS as usize]; 3];
        let answer =
            transfer_library::transfers(&transfer, lists.each_mut().map(|list| &mut list[..]));
        (answer, lists)
    });
    comparison.same(answer, expected, || {
        format!("{transfer:?}, and {zero_based:?}")
    })
}

fn ending_with_last(side: &Side) -> Side {
    let Triplet { lower, upper, step } = side.triplet;
    let upper = lower + (upper - lower) / step * step;
    let triplet = Triplet { lower, upper, step };
    Side { triplet, ..*side }
}
