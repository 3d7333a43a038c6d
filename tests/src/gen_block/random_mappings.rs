//! Random lists of sizes and random mappings over the full range of each number, at random
//! elements and processors, compared with the runs.

use crate::comparison::{Comparison, Difference, Outcome};
use crate::gen_block::answers;
use crate::gen_block::library::GenBlock;
use crate::gen_block::sizes::Sizes;
use crate::generator::Generator;
use crate::library::{Found, Mapping};
use crate::random_mappings;

const MAPPINGS: u32 = 40_000;

pub fn compare_mappings(comparison: &mut Comparison) -> Result<String, Difference> {
    let mut generator = Generator::new(10);
    for _ in 0..MAPPINGS {
        let m = random_mappings::random_mapping(&mut generator);
        let g = with_random_sizes(&mut generator, m);
        compare_elements(comparison, &mut generator, &g)?;
        compare_processors(comparison, &mut generator, &g)?;
    }
    Ok(format!(
        "{MAPPINGS} random lists of sizes and mappings at full range"
    ))
}

pub fn with_random_sizes(generator: &mut Generator, m: Mapping) -> GenBlock {
    let sizes = random_sizes(generator, m.processors as u64, m.cells as u64);
    GenBlock {
        m,
        sizes: Sizes::of(&sizes),
    }
}

/// The template is cut anywhere, near its ends, and often twice at one place. Then sizes
/// may grow, now by little, now to the largest, so that the sum exceeds T.
fn random_sizes(generator: &mut Generator, processors: u64, cells: u64) -> Vec<i32> {
    let mut cuts = vec![0, cells];
    while (cuts.len() as u64) <= processors {
        let cut = match generator.below(4) {
            0 => *cuts.last().expect("there are two"),
            1 => cells - generator.below(cells.min(3)),
            2 => generator.below(cells.min(3) + 1),
            _ => generator.below(cells + 1),
        };
        cuts.push(cut);
    }
    cuts.sort_unstable();
    let ends = cuts.windows(2);
    let mut sizes: Vec<i32> = ends.map(|cut| (cut[1] - cut[0]) as i32).collect();
    while generator.below(3) == 0 {
        let place = generator.below(processors) as usize;
        let room = i64::from(i32::MAX - sizes[place]) as u64;
        let more = match generator.below(2) {
            0 => room.min(generator.below(4)),
            _ => room,
        };
        sizes[place] += more as i32;
    }
    sizes
}

/// The first and the last element, those beside them, and some others.
fn compare_elements(
    comparison: &mut Comparison,
    generator: &mut Generator,
    g: &GenBlock,
) -> Outcome {
    let (first, size) = (g.m.array_lower, g.m.size);
    let random = [(); 3].map(|()| first + generator.below(size as u64) as i64);
    let ends = [first - 1, first, first + size - 1, first + size];
    for index in ends.into_iter().chain(random) {
        let expected = answers::ownership(g, index);
        comparison.ownership(g, index, expected)?;
        if expected.refusal == 0 {
            let (processor, address) = (expected.processor.into(), expected.address.into());
            comparison.going_back(g, processor, address, Found::element(index))?;
        }
    }
    Ok(())
}

/// The first and the last processor, those beside them, and one more.
fn compare_processors(
    comparison: &mut Comparison,
    generator: &mut Generator,
    g: &GenBlock,
) -> Outcome {
    let p = g.m.processors;
    for processor in [-1, 0, generator.below(p as u64) as i64, p - 1, p] {
        let expected = answers::local_count(g, processor);
        comparison.local_count(g, processor, expected)?;
        for address in [-1, 0, i64::from(expected.elements)] {
            let expected = answers::going_back(g, processor, address);
            comparison.going_back(g, processor, address, expected)?;
        }
    }
    Ok(())
}
