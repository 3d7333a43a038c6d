//! Cases whose answers were found by hand.

use crate::comparison::{Comparison, Difference};
use crate::enumeration::Place;
use crate::library::{Found, Mapping, Owned};

const MAPPING: Mapping = Mapping {
    cells: 96,
    processors: 3,
    block: 4,
    stride: 1,
    offset: 0,
    size: 96,
    array_lower: 0,
    template_lower: 0,
};

/// A(1:100) aligned with T(2*j-2), and A(-3:20) aligned with T(2*j+1) of a template
/// from -5 on: a first element on cell 0 each.
const FROM_ONE: [i64; 8] = [200, 4, 5, 2, -2, 100, 1, 0];
const FROM_MINUS_THREE: [i64; 8] = [47, 3, 4, 2, 1, 24, -3, -5];

/// A mapping, an index, and its owner and address.
const DECLARED: [([i64; 8], i64, [u64; 2]); 6] = [
    (FROM_ONE, 1, [0, 0]),
    (FROM_ONE, 4, [1, 0]),
    (FROM_ONE, 100, [3, 19]),
    (FROM_MINUS_THREE, -3, [0, 0]),
    (FROM_MINUS_THREE, 0, [1, 1]),
    (FROM_MINUS_THREE, 20, [2, 7]),
];

/// A mapping, an index, and what it meets: beside the array, a first element before
/// the template, a last one past it, and bounds past their limits.
const REFUSED: [([i64; 8], i64, i32); 10] = [
    (FROM_ONE, 0, 9),
    (FROM_ONE, 101, 9),
    (FROM_MINUS_THREE, -4, 9),
    (FROM_MINUS_THREE, 21, 9),
    ([200, 4, 5, 2, -3, 100, 1, 0], 1, 5),
    ([198, 4, 5, 2, -2, 100, 1, 0], 1, 5),
    ([200, 4, 5, 2, -2, 100, 1, 1], 1, 5),
    ([1, 1, 1, 1, 0, 2, 2_147_483_647, 0], 0, 15),
    ([2, 1, 1, 1, 0, 0, 0, 2_147_483_647], 0, 15),
    ([1, 1, 1, 1, -2_147_483_648, 1, 0, 0], 0, 4),
];

/// 1,024 processors pass and 1,025 do not; blocks of 65,536 cells pass and of
/// 65,537 do not; strides of 4,096 pass and of 4,097 do not.
pub fn compare_limits(comparison: &mut Comparison) -> Result<String, Difference> {
    let on_processors = |processors| Mapping {
        processors,
        ..MAPPING
    };
    let in_blocks_of = |block| Mapping { block, ..MAPPING };
    let one_by = |stride| Mapping {
        stride,
        size: 1,
        ..MAPPING
    };
    let two_by = |stride| Mapping {
        cells: 4_097,
        size: 2,
        ..one_by(stride)
    };
    comparison.ownership(&on_processors(1_024), 95, owned(23, 3))?;
    comparison.ownership(&on_processors(1_025), 95, Owned::refused(2))?;
    comparison.ownership(&in_blocks_of(65_536), 95, owned(0, 95))?;
    comparison.ownership(&in_blocks_of(65_537), 95, Owned::refused(3))?;
    comparison.ownership(&two_by(4_096), 1, owned(1, 0))?;
    comparison.ownership(&two_by(4_097), 1, Owned::refused(4))?;
    comparison.ownership(&one_by(4_096), 0, owned(0, 0))?;
    comparison.ownership(&one_by(4_097), 0, Owned::refused(4))?;
    comparison.ownership(&one_by(2_147_483_647), 0, Owned::refused(4))?;
    Ok("limits of processors, blocks and strides, by hand".to_string())
}

/// Declared indices there and back.
pub fn compare_bounds(comparison: &mut Comparison) -> Result<String, Difference> {
    for (numbers, index, [processor, address]) in DECLARED {
        let m = Mapping::of(numbers);
        comparison.ownership(&m, index, owned(processor, address))?;
        let (processor, address) = (processor as i64, address as i64);
        comparison.going_back(&m, processor, address, Found::element(index))?;
    }
    for (numbers, index, refusal) in REFUSED {
        comparison.ownership(&Mapping::of(numbers), index, Owned::refused(refusal))?;
    }
    Ok("declared bounds, by hand".to_string())
}

fn owned(processor: u64, address: u64) -> Owned {
    Owned::at(Place { processor, address })
}
