//! Mappings at an edge of what is accepted and one past it: the largest stride, and the
//! first and the last cell, index and declared cell.

use crate::answers;
use crate::comparison::{Comparison, Difference, Outcome};
use crate::generator::Generator;
use crate::library::{Counted, Found, Mapping, Owned};
use crate::questions::{self, LARGEST_STRIDE};
use crate::random_bounds::{with_bounds, with_random_bounds, with_random_indices, within};
use crate::random_mappings::random_mapping;
use crate::section_answers;
use crate::section_comparison::Filling;
use crate::section_library::{Fill, Placed, Steps, Triplet};

const LARGEST: i64 = 2_147_483_647;
const TIMES: u32 = 10_000;

/// An accepted mapping, one just past it, and what that one meets.
struct Edge {
    at: Mapping,
    past: Mapping,
    refusal: i32,
}

/// Makes an edge of a mapping with one element or more.
type Maker = fn(&mut Generator, Mapping) -> Edge;

const MAKERS: [Maker; 9] = [
    past_largest_stride,
    before_first_cell,
    past_last_cell,
    past_last_index,
    past_last_index_by_size,
    past_last_declared_cell,
    before_first_index,
    before_first_declared_cell,
    past_everything,
];

pub fn compare_edges(comparison: &mut Comparison) -> Result<String, Difference> {
    let mut generator = Generator::new(8);
    for make in MAKERS {
        for _ in 0..TIMES {
            let m = random_mapping(&mut generator);
            let edge = make(&mut generator, m);
            compare_accepted(comparison, &edge.at)?;
            compare_refused(comparison, &edge.past, edge.refusal)?;
        }
    }
    let edges = MAKERS.len();
    Ok(format!(
        "{edges} edges of what is accepted, {TIMES} mappings at and past each"
    ))
}

/// The first element stays on its cell, and as many others as fit follow it.
fn past_largest_stride(generator: &mut Generator, m: Mapping) -> Edge {
    let most = (m.cells - 1 - m.first_cell()) / LARGEST_STRIDE + 1;
    let strided = Mapping {
        stride: LARGEST_STRIDE,
        size: m.size.min(most),
        ..with_bounds(&m, 0, 0)
    };
    let at = with_random_bounds(generator, &strided);
    Edge {
        at,
        past: Mapping {
            stride: LARGEST_STRIDE + 1,
            ..at
        },
        refusal: 4,
    }
}

/// The first cell is 0, and the offset or the template's bound moves it below.
fn before_first_cell(generator: &mut Generator, m: Mapping) -> Edge {
    let offset = m.offset - m.first_cell();
    let at = with_random_bounds(generator, &Mapping { offset, ..m });
    let mut past = at;
    let refusal = if generator.below(2) == 0 {
        past.offset -= 1;
        if past.offset < -LARGEST {
            4
        } else {
            5
        }
    } else {
        past.template_lower += 1;
        if past.template_lower + past.cells - 1 > LARGEST {
            15
        } else {
            5
        }
    };
    Edge { at, past, refusal }
}

/// The template ends with the last element's cell, and one cell before it.
fn past_last_cell(_: &mut Generator, m: Mapping) -> Edge {
    let cells = m.first_cell() + m.stride * (m.size - 1) + 1;
    Edge {
        at: Mapping { cells, ..m },
        past: Mapping {
            cells: cells - 1,
            ..m
        },
        refusal: if cells == 1 { 1 } else { 5 },
    }
}

/// The last index is the largest. Stride 1 leaves the offset room for it.
fn past_last_index(generator: &mut Generator, m: Mapping) -> Edge {
    let m = with_stride_1(&m);
    let array_lower = LARGEST - m.size + 1;
    let lowest = (array_lower - LARGEST - m.first_cell()).max(-LARGEST);
    let template_lower = within(generator, lowest, LARGEST - m.cells + 1);
    let at = with_bounds(&m, array_lower, template_lower);
    Edge {
        at,
        past: Mapping {
            array_lower: array_lower + 1,
            ..at
        },
        refusal: 15,
    }
}

/// The first element stays on its cell, and the bounds are 0.
fn with_stride_1(m: &Mapping) -> Mapping {
    Mapping {
        stride: 1,
        ..with_bounds(m, 0, 0)
    }
}

/// One element more has an index past the largest, on whatever cell.
fn past_last_index_by_size(generator: &mut Generator, m: Mapping) -> Edge {
    let Edge { at, .. } = past_last_index(generator, m);
    Edge {
        at,
        past: Mapping {
            size: at.size + 1,
            ..at
        },
        refusal: if at.size == LARGEST { 5 } else { 15 },
    }
}

fn past_last_declared_cell(generator: &mut Generator, m: Mapping) -> Edge {
    let at = with_random_indices(generator, &m, LARGEST - m.cells + 1);
    Edge {
        at,
        past: Mapping {
            template_lower: at.template_lower + 1,
            ..at
        },
        refusal: 15,
    }
}

/// The first index is the least. Stride 1 leaves the offset room for it.
fn before_first_index(generator: &mut Generator, m: Mapping) -> Edge {
    let m = with_stride_1(&m);
    let highest = (-m.first_cell()).min(LARGEST - m.cells + 1);
    let template_lower = within(generator, -LARGEST, highest);
    let at = with_bounds(&m, -LARGEST, template_lower);
    Edge {
        at,
        past: Mapping {
            array_lower: -LARGEST - 1,
            ..at
        },
        refusal: 15,
    }
}

fn before_first_declared_cell(generator: &mut Generator, m: Mapping) -> Edge {
    let at = with_random_indices(generator, &m, -LARGEST);
    Edge {
        at,
        past: Mapping {
            template_lower: -LARGEST - 1,
            ..at
        },
        refusal: 15,
    }
}

/// With stride 2 the last index and declared cell can both be the largest, and the
/// offset is the least.
fn past_everything(_: &mut Generator, m: Mapping) -> Edge {
    let size = m.size.min((LARGEST - 1) / 2);
    let at = Mapping {
        cells: 2 * size - 1,
        stride: 2,
        offset: -LARGEST,
        size,
        array_lower: LARGEST - size + 1,
        template_lower: LARGEST - 2 * size + 2,
        ..m
    };
    Edge {
        at,
        past: Mapping {
            offset: at.offset - 1,
            ..at
        },
        refusal: 4,
    }
}

/// The first and the last element, the indices beside them, and the section from
/// one to the other.
fn compare_accepted(comparison: &mut Comparison, m: &Mapping) -> Outcome {
    comparison.same(questions::of_mapping(m), 0, || {
        format!("questions of {m:?}")
    })?;
    let (first, last) = (m.array_lower, m.array_lower + m.size - 1);
    for index in [first, last] {
        let expected = answers::ownership(m, index);
        let (processor, address) = (expected.processor.into(), expected.address.into());
        comparison.ownership(m, index, expected)?;
        comparison.going_back(m, processor, address, Found::element(index))?;
    }
    comparison.ownership(m, first - 1, Owned::refused(9))?;
    comparison.ownership(m, last + 1, Owned::refused(9))?;
    for (lower, upper, direction) in [(first, last, 1), (last, first, -1)] {
        let step = direction * (m.size - 1).max(1);
        let triplet = Triplet { lower, upper, step };
        let expected = section_answers::section_steps(m, &triplet);
        comparison.section_steps(m, &triplet, expected)?;
        let expected = section_answers::first_place(m, &triplet, 0);
        comparison.first_place(m, &triplet, 0, expected)?;
    }
    Ok(())
}

fn compare_refused(comparison: &mut Comparison, m: &Mapping, refusal: i32) -> Outcome {
    let index = m.array_lower;
    let fill = Fill {
        m: *m,
        triplet: Triplet::of([index, index, 1]),
        processor: 0,
        place: 0,
        quota: 3,
    };
    comparison.ownership(m, index, Owned::refused(refusal))?;
    comparison.going_back(m, 0, 0, Found::refused(refusal))?;
    comparison.local_count(m, 0, Counted::refused(refusal))?;
    comparison.section_steps(m, &fill.triplet, Steps::refused(refusal))?;
    comparison.first_place(m, &fill.triplet, 0, Placed::refused(refusal))?;
    comparison.fill_nothing(&fill, Filling::refused(refusal).answer)
}
