//! All pages of tiny sheets.

use crate::checking::{page_table, Checks};
use second::gen::bay::days::Size;
use second::gen::bay::{families, placements};
use second::gen::check_only;
use second::gen::day::Day;
use second::planner::set::Set;

/// Benches of the sheet, and the most sets of its pages.
const SIZES: [(u64, usize); 3] = [(1, 4), (2, 4), (3, 3)];

pub fn round(checks: &mut Checks) {
    checks.class("all pages of a tiny sheet");
    for (benches, most) in SIZES {
        let day = day(checks, benches);
        let sheet = day.draft().bytes();
        let all: Vec<Set> = (0..1_u64 << benches).map(|set| Set(set << (64 - benches))).collect();
        let foreign = Set::one(checks.rng.range(benches, 63) as usize);
        let choices = [all, vec![foreign, foreign | Set::one(0)]].concat();
        for count in 0..=most {
            each_page(&choices, count, &mut Vec::new(), &mut |sets| {
                checks.page(&sheet, &page_table(sets));
            });
        }
    }
}

/// Most days have sets that weigh about k × T, and some have a job above T.
fn day(checks: &mut Checks, benches: u64) -> Day {
    let rng = &mut checks.rng;
    let (jobs, target) = (rng.below(6), rng.range(1, 12));
    let mut day = match rng.below(6) {
        0 => check_only::only(rng, benches, jobs),
        _ => placements::any(rng, Size { benches, jobs, target }),
    };
    let sets = families::disjoint(rng, benches);
    families::level(rng, &mut day, &sets);
    if rng.one_in(8) {
        day.head.target /= 2;
    }
    day
}

/// Every page of so many of the sets, with the sets that it begins with.
fn each_page(choices: &[Set], count: usize, begin: &mut Vec<Set>, page: &mut impl FnMut(&[Set])) {
    if begin.len() == count {
        return page(begin);
    }
    for &set in choices {
        begin.push(set);
        each_page(choices, count, begin, page);
        begin.pop();
    }
}
