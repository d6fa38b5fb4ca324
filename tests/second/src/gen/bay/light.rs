//! Sets of benches for light jobs.

use crate::gen::day::{bench_bit, few_benches, many_benches};
use crate::rng::Rng;

#[derive(Clone, Copy, Debug, PartialEq, Eq)]
pub enum Choice {
    Everywhere,
    /// A bench and the next one or two.
    Next,
    /// Any one or two.
    Few,
    /// Any three or more, where there are so many.
    Many,
    /// The lowest bench and another.
    FromLowest,
    /// Each job in another way.
    Mixed,
}

pub const CHOICES: [Choice; 6] = [
    Choice::Everywhere,
    Choice::Next,
    Choice::Few,
    Choice::Many,
    Choice::FromLowest,
    Choice::Mixed,
];

/// The benches that a light job is allowed.
pub fn allowed(rng: &mut Rng, choice: Choice, benches: u64) -> u64 {
    match choice {
        Choice::Everywhere => u64::MAX << (64 - benches),
        Choice::Next => {
            let bench = rng.range(0, benches - 1);
            let last = (bench + rng.range(1, 2)).min(benches - 1);
            (bench..=last).map(bench_bit).sum()
        }
        Choice::Many if benches >= 3 => many_benches(rng, benches),
        Choice::FromLowest => bench_bit(0) | bench_bit(rng.range(0, benches - 1)),
        Choice::Few | Choice::Many => few_benches(rng, benches),
        Choice::Mixed => {
            let choice = rng.pick(&CHOICES[..5]);
            allowed(rng, choice, benches)
        }
    }
}
