//! Lists of sizes and numbers that are refused, found by hand: the first of several
//! faults must be named.

use crate::calls::Calls;
use crate::checkpoint_comparison::distinct_words;
use crate::checkpoint_enumeration::Layout;
use crate::checkpoint_library::DIRECTIONS;
use crate::comparison::{Comparison, Difference, Outcome};
use crate::gen_block::library::GenBlock;
use crate::gen_block::section_library::Fill;
use crate::gen_block::sizes::Sizes;
use crate::library::{Counted, Found, Owned};
use crate::memory::Memory;
use crate::section_comparison::Filling;
use crate::section_library::{Placed, Steps, Triplet};

const LARGEST: i64 = 2_147_483_647;
const MIN: i32 = i32::MIN;
const MAX: i32 = i32::MAX;

/// Ten elements on as many cells, and four processors.
const LAWFUL: [i64; 7] = [10, 4, 1, 0, 10, 0, 0];
const EXACT: &[i32] = &[3, 0, 5, 2];

/// T, p, a, b, n, La and Lt, sizes, how many bytes are left over, and what is met.
const MAPPINGS: [([i64; 7], &[i32], usize, i32); 35] = [
    (LAWFUL, EXACT, 0, 0),
    (LAWFUL, &[0, 0, 0, 10], 0, 0),
    (LAWFUL, &[10, 0, 0, 0], 0, 0),
    (LAWFUL, &[MAX, MAX, MAX, MAX], 0, 0),
    (LAWFUL, &[3, 0, 5, 1], 0, 16),
    (LAWFUL, &[0, 0, 0, 0], 0, 16),
    (LAWFUL, &[3, -1, 5, 3], 0, 16),
    (LAWFUL, &[11, 0, 0, -1], 0, 16),
    (LAWFUL, &[MIN, MAX, MAX, MAX], 0, 16),
    (LAWFUL, &[MAX, MAX, MIN, MAX], 0, 16),
    (LAWFUL, &[MIN, MIN, MIN, MIN], 0, 16),
    (LAWFUL, &[3, 0, 7], 0, 16),
    (LAWFUL, &[3, 0, 5, 2, 0], 0, 16),
    (LAWFUL, &[], 0, 16),
    (LAWFUL, EXACT, 1, 16),
    (LAWFUL, EXACT, 2, 16),
    (LAWFUL, EXACT, 3, 16),
    (LAWFUL, &[3, 0, 7], 1, 16),
    (LAWFUL, &[3, 0, 7], 3, 16),
    ([0, 0, 0, 0, -1, 0, 0], &[-1], 0, 1),
    ([LARGEST + 1, 1, 1, 0, 1, 0, 0], &[MAX], 0, 1),
    ([10, 0, 0, 0, -1, 0, 0], &[], 0, 2),
    ([10, 0, 1, 0, 10, 0, 0], &[-1], 1, 2),
    ([10, 1_025, 1, 0, 10, 0, 0], &[MAX; 1_025], 0, 2),
    ([10, -4, 1, 0, 10, 0, 0], EXACT, 0, 2),
    ([10, (1 << 62) + 4, 1, 0, 10, 0, 0], EXACT, 0, 2),
    ([10, 4, 0, 0, -1, 0, 0], &[3, 0, 5, 1], 0, 16),
    ([11, 4, 1, 0, 12, 0, 0], EXACT, 0, 16),
    ([10, 4, 0, 0, -1, 0, 0], EXACT, 0, 4),
    ([4_097, 1, 4_096, 0, 2, 0, 0], &[4_097], 0, 0),
    ([4_097, 1, 4_097, 0, 1, 0, 0], &[4_097], 0, 4),
    ([4_097, 1, 4_097, 0, 1, 0, 0], &[4_096], 0, 16),
    ([10, 4, 1, 0, -1, LARGEST + 1, 0], EXACT, 0, 5),
    ([10, 4, 1, 0, 11, 0, LARGEST - 8], EXACT, 0, 15),
    ([10, 4, 1, 0, 11, 0, 0], &[3, 0, 5, 6], 0, 5),
];

const MEMORY: usize = 24;

pub fn compare_mappings(comparison: &mut Comparison) -> Result<String, Difference> {
    for (numbers, sizes, left_over, refusal) in MAPPINGS {
        let mut g = GenBlock::of(numbers, sizes);
        let mut bytes = g.sizes.bytes().to_vec();
        bytes.resize(bytes.len() + left_over, 0);
        g.sizes = Sizes::of_bytes(&bytes);
        comparison.same(g.refusal(), refusal, || format!("questions of {g:?}"))?;
        if refusal == 0 {
            comparison.local_count(&g, 4, Counted::refused(8))?;
            comparison.ownership(&g, 10, Owned::refused(9))?;
        } else {
            compare_refused(comparison, &g, refusal)?;
        }
    }
    Ok("lists of sizes and numbers that are refused, by hand".to_string())
}

/// Everything else is at fault too, but what a checkpoint needs.
fn compare_refused(comparison: &mut Comparison, g: &GenBlock, refusal: i32) -> Outcome {
    let triplet = Triplet::of([0, LARGEST + 1, 0]);
    let fill = Fill {
        g: g.clone(),
        triplet,
        processor: -1,
        place: -1,
        quota: 2,
    };
    comparison.ownership(g, -1, Owned::refused(refusal))?;
    comparison.going_back(g, -1, -1, Found::refused(refusal))?;
    comparison.local_count(g, -1, Counted::refused(refusal))?;
    comparison.section_steps(g, &triplet, Steps::refused(refusal))?;
    comparison.first_place(g, &triplet, -1, Placed::refused(refusal))?;
    let expected = Filling::refused(refusal);
    comparison.fill(&fill, &mut Memory::new(MEMORY), 5..20, &expected)?;
    comparison.fill_nothing(&fill, expected.answer)?;
    for direction in DIRECTIONS {
        for words in [0, 12] {
            comparison.copy(direction, &Layout::unknown(g), &distinct_words(words), 12)?;
        }
    }
    Ok(())
}
