//! Families of sets of benches, for pages: disjoint ones, brought to about k × T each, and ones with
//! a fault.

use super::placements::bring_to;
use crate::gen::day::Day;
use crate::planner::set::Set;
use crate::rng::Rng;

/// Disjoint sets of benches of a head, each with one bench at least, in any order: one or several,
/// or each bench by itself; of all benches or of some.
pub fn disjoint(rng: &mut Rng, benches: u64) -> Vec<Set> {
    let benches = benches as usize;
    let count = match rng.below(4) {
        0 => 2,
        _ => 1 + rng.below(benches),
    };
    let is_alone = rng.one_in(4);
    let left_out = rng.pick(&[2, 5, usize::MAX]);
    let mut sets = vec![Set::EMPTY; benches.max(count)];
    for bench in 0..benches {
        if !rng.one_in(left_out) {
            let set = if is_alone { bench } else { rng.below(count) };
            sets[set].insert(bench);
        }
    }
    sets.retain(|set| !set.is_empty());
    rng.shuffle(&mut sets);
    sets
}

/// Brings each set of a family to k × T, one more or one less: all of them above, all but one, or
/// some. A set that is above already stays so.
pub fn level(rng: &mut Rng, day: &mut Day, sets: &[Set]) {
    let spared = rng.below(sets.len().max(1));
    let sort = rng.below(3);
    for (number, &set) in sets.iter().enumerate() {
        let above = match sort {
            0 => true,
            1 => number != spared,
            _ => rng.one_in(2),
        };
        let limit = set.len() as u64 * day.head.target;
        let wanted = if above { limit + 1 } else { limit - rng.range(0, 1).min(limit) };
        bring_to(rng, day, set, wanted);
    }
}

/// The union of a family.
pub fn union(sets: &[Set]) -> Set {
    sets.iter().fold(Set::EMPTY, |all, &set| all | set)
}

/// Gives a family a fault, or one more: an empty set, a bench that the head lacks, a bench of an
/// earlier set, the neighbour or not, or both of these at one set.
pub fn spoil(rng: &mut Rng, sets: &mut Vec<Set>, benches: u64) {
    let foreign = match benches {
        64 => Set::EMPTY,
        _ => Set::one(rng.range(benches, 63) as usize),
    };
    let gap = rng.below(sets.len() + 1);
    let (earlier, later) = sets.split_at(gap);
    let not_neighbour = &earlier[..gap.saturating_sub(1)];
    let of_any = some_bench(rng, earlier);
    let new = match rng.below(7) {
        0 => Set::EMPTY,
        1 => foreign,
        2 => of_any,
        3 => some_bench(rng, not_neighbour),
        4 => foreign | of_any,
        5 => earlier.last().copied().unwrap_or(Set::EMPTY),
        _ => of_any | some_bench(rng, later),
    };
    match rng.below(3) {
        0 if gap < sets.len() => sets[gap] |= new,
        _ => sets.insert(gap, new),
    }
}

/// A bench of one of the sets, if there is any.
fn some_bench(rng: &mut Rng, sets: &[Set]) -> Set {
    let benches: Vec<usize> = union(sets).collect();
    match benches.is_empty() {
        true => Set::EMPTY,
        false => Set::one(rng.pick(&benches)),
    }
}

/// So many sets: each of 64 benches by itself, then any of these again.
pub fn wide(rng: &mut Rng, count: usize) -> Vec<Set> {
    let mut sets: Vec<Set> = (0..64).map(Set::one).collect();
    rng.shuffle(&mut sets);
    sets.resize_with(count.max(64), || Set::one(rng.below(64)));
    sets
}
