//! Fills that must be refused: lawful ones with a list of sizes that is at fault, or with
//! numbers that are.

use crate::faults::{spoil_number, spoil_place, MOST_FAULTS};
use crate::fill_chains::Chained;
use crate::gen_block::library::GenBlock;
use crate::gen_block::questions;
use crate::gen_block::runs::Runs;
use crate::gen_block::section_library::Fill;
use crate::gen_block::sizes::Sizes;
use crate::generator::Generator;
use crate::section_library;
use crate::transfer_enumeration::Places;

impl Chained for Fill {
    const REFUSALS: &'static [usize] = &[1, 2, 16, 4, 5, 6, 7, 8, 10, 11, 15];

    fn with(&self, place: i64, quota: i64) -> Fill {
        Fill {
            place,
            quota,
            ..self.clone()
        }
    }

    fn spoil(&self, generator: &mut Generator) -> Fill {
        let lawful = numbers(self);
        let (mut fill, mut sizes) = (lawful, self.g.sizes.clone());
        for _ in 0..generator.within(1, MOST_FAULTS) {
            match generator.below(12) {
                0 => sizes = spoil_sizes(generator, &self.g),
                1 => {
                    let owner = |index| Runs::of(&self.g).owner(index);
                    spoil_place(generator, &lawful, &mut fill, owner);
                }
                _ => spoil_number(generator, &lawful, &mut fill),
            }
        }
        with_numbers(&fill, sizes)
    }

    fn refusal(&self) -> i32 {
        questions::of_fill(self)
    }
}

/// The numbers without the sizes.
fn numbers(fill: &Fill) -> section_library::Fill {
    section_library::Fill {
        m: fill.g.m,
        triplet: fill.triplet,
        processor: fill.processor,
        place: fill.place,
        quota: fill.quota,
    }
}

fn with_numbers(fill: &section_library::Fill, sizes: Sizes) -> Fill {
    Fill {
        g: GenBlock { m: fill.m, sizes },
        triplet: fill.triplet,
        processor: fill.processor,
        place: fill.place,
        quota: fill.quota,
    }
}

/// A list of another length, with a size below 0, or with a sum just below T.
pub fn spoil_sizes(generator: &mut Generator, lawful: &GenBlock) -> Sizes {
    let mut sizes: Vec<i32> = lawful.sizes.numbers().collect();
    let place = generator.below(sizes.len() as u64) as usize;
    match generator.below(6) {
        0 => return with_bytes_left_over(generator, &lawful.sizes),
        1 => {
            sizes.remove(place);
        }
        2 => sizes.insert(place, 0),
        3 => sizes[place] = -1 - generator.of_any_size(5) as i32,
        4 => sizes[place] = i32::MIN + generator.below(3) as i32,
        _ => cut_to(&mut sizes, lawful.m.cells - 1),
    }
    Sizes::of(&sizes)
}

/// One to three bytes more, or fewer.
fn with_bytes_left_over(generator: &mut Generator, lawful: &Sizes) -> Sizes {
    let mut bytes = lawful.bytes().to_vec();
    let few = generator.within(1, 3) as usize;
    let length = match generator.below(2) {
        0 => bytes.len() - few,
        _ => bytes.len() + few,
    };
    bytes.resize(length, 0);
    Sizes::of_bytes(&bytes)
}

/// Takes cells from the last processors until so many are left in all.
fn cut_to(sizes: &mut [i32], cells: i64) {
    let mut too_many = sizes.iter().copied().map(i64::from).sum::<i64>() - cells;
    for size in sizes.iter_mut().rev() {
        let cut = too_many.min(i64::from(*size));
        *size -= cut as i32;
        too_many -= cut;
    }
}
