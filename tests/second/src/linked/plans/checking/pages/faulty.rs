//! Pages with a fault, or with several; pages of more than 64 sets; pages that end in a begun entry.

use super::laws;
use crate::checking::{page_table, Checks};
use second::codec::door::ENTRY_BYTES;
use second::gen::bay::days::{self, Size};
use second::gen::bay::{families, placements};
use second::planner::set::Set;

pub fn round(checks: &mut Checks) {
    spoilt(checks);
    any_sets(checks);
    wide(checks);
    begun(checks);
}

fn any_size(checks: &mut Checks, turn: usize) -> Size {
    match turn % 8 {
        0 => days::full(&mut checks.rng),
        1 | 2 => days::middle(&mut checks.rng),
        _ => placements::small(&mut checks.rng),
    }
}

/// Disjoint sets with one fault, two or three.
fn spoilt(checks: &mut Checks) {
    checks.class("pages with faults");
    for turn in 0..64 {
        let size = any_size(checks, turn);
        let mut day = placements::any(&mut checks.rng, size);
        let mut sets = families::disjoint(&mut checks.rng, day.head.benches);
        families::level(&mut checks.rng, &mut day, &sets);
        for _ in 0..checks.rng.pick(&[1, 1, 2, 3]) {
            families::spoil(&mut checks.rng, &mut sets, day.head.benches);
        }
        laws::all(checks, &day.draft().bytes(), &sets);
    }
}

/// Sets that have nothing to do with each other.
fn any_sets(checks: &mut Checks) {
    checks.class("pages of any sets");
    for turn in 0..24 {
        let size = any_size(checks, turn);
        let day = placements::any(&mut checks.rng, size);
        let mut any = |_| match checks.rng.below(6) {
            0 => Set(checks.rng.word()),
            _ => placements::any_set(&mut checks.rng, day.head.benches),
        };
        let sets: Vec<Set> = (0..2 + turn % 4).map(&mut any).collect();
        checks.page(&day.draft().bytes(), &page_table(&sets));
    }
}

/// 64 sets of one bench each, and more behind them.
fn wide(checks: &mut Checks) {
    checks.class("pages of 65 sets and more");
    for turn in 0..8 {
        let size = Size { jobs: checks.rng.below(100), ..days::full(&mut checks.rng) };
        let mut day = placements::any(&mut checks.rng, size);
        let count = [64, 65, 65, 66, 66, 70, 1000, 1001][turn];
        let mut sets = families::wide(&mut checks.rng, count);
        families::level(&mut checks.rng, &mut day, &sets[..64]);
        if checks.rng.one_in(2) {
            sets[64..].fill(Set::EMPTY);
        }
        if checks.rng.one_in(4) {
            families::spoil(&mut checks.rng, &mut sets, 64);
        }
        checks.page(&day.draft().bytes(), &page_table(&sets));
    }
}

/// The last set has the bytes of its higher benches alone, and is whole without the others; or it
/// loses some of its benches.
fn begun(checks: &mut Checks) {
    checks.class("pages with a begun entry");
    for turn in 0..30 {
        let benches = checks.rng.range(9, 64);
        let size = Size { benches, ..days::middle(&mut checks.rng) };
        let mut day = placements::any(&mut checks.rng, size);
        let high = checks.rng.range(8, benches - 1) as usize;
        let mut sets = families::disjoint(&mut checks.rng, benches);
        sets.retain(|set| !set.has(high));
        sets.push(Set::one(high));
        families::level(&mut checks.rng, &mut day, &sets);
        let (sheet, page) = (day.draft().bytes(), page_table(&sets));
        let cut = match turn % 3 {
            0 => checks.rng.range(1, 7) as usize,
            _ => high / 8,
        };
        checks.page(&sheet, &page[..page.len() - cut]);
        let zeros = vec![0; checks.rng.below(ENTRY_BYTES)];
        checks.page(&sheet, &[page, zeros].concat());
    }
}
