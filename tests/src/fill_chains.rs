//! Fills one after another, from a place to the end of a processor's list, with
//! refused fills between them.

use std::ops::Range;

use crate::calls::CallFill;
use crate::comparison::{Comparison, Outcome};
use crate::faults;
use crate::generator::Generator;
use crate::memory::Memory;
use crate::processor_list::{self, List};
use crate::questions;
use crate::section_comparison::Filling;
use crate::section_library::Fill;

const LARGEST_QUOTA: u64 = 1_000_000;
const GUARD: u64 = 8;

/// A fill of either dealing, which is made again and again with another place and quota.
pub trait Chained: CallFill + Clone {
    /// What fills at fault may meet.
    const REFUSALS: &'static [usize];

    fn with(&self, place: i64, quota: i64) -> Self;

    /// The lawful fill with some faults.
    fn spoil(&self, generator: &mut Generator) -> Self;

    /// The first question that is answered no, or 0.
    fn refusal(&self) -> i32;
}

impl Chained for Fill {
    const REFUSALS: &'static [usize] = &[1, 2, 3, 4, 5, 6, 7, 8, 10, 11, 15];

    fn with(&self, place: i64, quota: i64) -> Fill {
        Fill {
            place,
            quota,
            ..*self
        }
    }

    fn spoil(&self, generator: &mut Generator) -> Fill {
        faults::spoil(generator, self)
    }

    fn refusal(&self) -> i32 {
        questions::of_fill(self)
    }
}

/// Runs chains, and counts the fills that were accepted and that met each refusal.
pub struct Chains<'a> {
    pub comparison: &'a mut Comparison,
    pub generator: Generator,
    /// Entries of the longest list that is lent.
    longest_list: u64,
    accepted: u64,
    refused: [u64; 18],
}

/// What the caller of a chain keeps, and what was got so far.
struct Chain<'a, F> {
    list: &'a List,
    fill: F,
    place: i64,
    memory: Memory,
    addresses: Vec<u32>,
    tries: u64,
}

impl Chains<'_> {
    pub fn new(comparison: &mut Comparison, seed: u64, longest_list: u64) -> Chains<'_> {
        Chains {
            comparison,
            generator: Generator::new(seed),
            longest_list,
            accepted: 0,
            refused: [0; 18],
        }
    }

    /// The counts in words.
    pub fn words<F: Chained>(&self) -> String {
        let accepted = self.accepted;
        let refused: u64 = self.refused.iter().sum();
        let kinds = F::REFUSALS.iter().map(|&kind| self.refused[kind]);
        let least = kinds.min().unwrap_or(0);
        format!("{accepted} fills and {refused} refused ones ({least} or more of each kind)")
    }

    /// Fills from the list's first entry until its end, and once more there.
    pub fn run<F: Chained>(&mut self, list: &List, fill: F) -> Outcome {
        let mut chain = Chain::new(list, fill, self.longest_list);
        loop {
            let was_at_end = chain.is_at_end();
            while self.generator.below(2) == 0 {
                self.fill_at_fault(&mut chain)?;
            }
            self.fill_lawfully(&mut chain)?;
            if was_at_end {
                return chain.compare_whole(self.comparison);
            }
        }
    }

    fn fill_at_fault<F: Chained>(&mut self, chain: &mut Chain<F>) -> Outcome {
        let lawful = chain.fill.with(chain.place, self.random_quota());
        let fill = lawful.spoil(&mut self.generator);
        let refusal = fill.refusal();
        self.refused[refusal as usize] += 1;
        let list = self.random_list(self.longest_list);
        let expected = Filling::refused(refusal);
        self.comparison
            .fill(&fill, &mut chain.memory, list, &expected)?;
        Ok(())
    }

    /// Compares a fill with what the rule allows, and keeps what it gave.
    fn fill_lawfully<F: Chained>(&mut self, chain: &mut Chain<F>) -> Outcome {
        self.accepted += 1;
        let quota = self.random_quota();
        let list = self.random_list(chain.known_entries().min(self.longest_list));
        let expected = chain.expected(quota as u64, list.len() / 4);
        let fill = chain.fill.with(chain.place, quota);
        let start = list.start;
        let filled = self
            .comparison
            .fill(&fill, &mut chain.memory, list, &expected)?;
        let written = chain.memory.read(start, filled.entries as usize);
        chain.addresses.extend(written);
        chain.tries += filled.tries as u64;
        chain.place = i64::from(filled.place);
        Ok(())
    }

    /// The least, a few, some, or among the most.
    fn random_quota(&mut self) -> i64 {
        let quota = match self.generator.below(4) {
            0 => 3,
            1 => self.generator.within(3, 9),
            2 => self.generator.within(3, 2 * self.longest_list),
            _ => LARGEST_QUOTA - self.generator.below(3),
        };
        quota as i64
    }

    /// Where a list of no, one, two or more entries stands, with up to 3 bytes
    /// left over.
    fn random_list(&mut self, most: u64) -> Range<usize> {
        let entries = match self.generator.below(6) {
            few @ 0..=2 => few.min(most),
            _ => self.generator.of_any_size(most + 1) - 1,
        };
        let start = GUARD + self.generator.below(8);
        let end = start + 4 * entries + self.generator.below(4);
        start as usize..end as usize
    }
}

impl<'a, F: Chained> Chain<'a, F> {
    /// The memory has room for the longest list, an odd start, bytes left over,
    /// and guards.
    fn new(list: &'a List, fill: F, longest_list: u64) -> Chain<'a, F> {
        let memory = GUARD + 8 + 4 * longest_list + 3 + GUARD;
        Chain {
            list,
            fill,
            place: list.place_after(0) as i64,
            memory: Memory::new(memory as usize),
            addresses: Vec::new(),
            tries: 0,
        }
    }

    fn is_at_end(&self) -> bool {
        self.place as u64 == self.list.end
    }

    /// How many entries a fill may take so that what it does is known.
    fn known_entries(&self) -> u64 {
        let left = self.list.entries.len() - self.addresses.len();
        if self.list.is_whole {
            u64::MAX
        } else {
            left as u64
        }
    }

    fn expected(&self, quota: u64, room: usize) -> Filling {
        let taken = self.addresses.len();
        let entries = self.list.taken_next(taken, quota, room);
        Filling::of(entries, self.list.place_after(taken + entries.len()))
    }

    /// The whole list was got, in order, for the tries of all its entries.
    fn compare_whole(&self, comparison: &mut Comparison) -> Outcome {
        let entries = &self.list.entries;
        let got = (&self.addresses, self.tries, self.place as u64);
        let expected = (
            &processor_list::addresses(entries),
            processor_list::tries(entries),
            self.list.end,
        );
        comparison.same(got, expected, || format!("chain of {:?}", self.fill))
    }
}
