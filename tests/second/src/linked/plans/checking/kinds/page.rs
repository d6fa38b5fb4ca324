//! What the tally counts of a page.

use super::{is_full, that_hold};
use second::codec::fault::{Fault, SET};
use second::codec::sheet::{Job, Sheet};
use second::gen::bay::families::union;
use second::judge::{is_blocking, lightest_placement, weight_of_lightest};
use second::planner::bay::is_heavy;
use second::planner::checker::PageCheck;
use second::planner::set::Set;

/// The kinds of pages that are wanted.
pub const PAGE_WANTED: [&str; 66] = [
    "page passed: empty",
    "page passed: empty, an assignment within T",
    "page passed: one set",
    "page passed: two sets or more",
    "page passed: five sets or more",
    "page passed: 64 sets",
    "page passed: a set one above k × T",
    "page passed: a bench left out",
    "page passed: all benches, in two sets or more",
    "page passed: not by rising benches",
    "page passed: a heavy job between two sets",
    "page passed: a light job between two sets",
    "page passed: no placement",
    "page passed: T = 0",
    "page passed: full sheet, two sets or more",
    "page not passed: set 0",
    "page not passed: a later set",
    "page not passed: the last of several sets",
    "page not passed: a later set too",
    "page not passed: all others are blocking",
    "page not passed: the union is blocking",
    "page not passed: k × T",
    "page not passed: a light job between sets is missing",
    "page not passed: the weight of earlier sets is missing",
    "page not passed: five sets or more",
    "page not passed: 64 sets",
    "page not passed: T = 0",
    "page not passed: full sheet",
    "page: fault 17, an empty set",
    "page: fault 17, a bench that the head lacks",
    "page: fault 17, set 0",
    "page: fault 17, a later set",
    "page: fault 17 at a set that shares a bench",
    "page: fault 17 before a shared bench",
    "page: fault 17 before another one",
    "page: fault 17 before long",
    "page: fault 17 behind a set that is not blocking",
    "page: fault 17, full sheet",
    "page: fault 18 with the neighbour alone",
    "page: fault 18 with an earlier set, not the neighbour",
    "page: fault 18 with neither the first set nor the neighbour",
    "page: fault 18 with the same set",
    "page: fault 18 with a set that is not blocking",
    "page: fault 18 before 17",
    "page: fault 18 before another shared bench",
    "page: fault 18 before long",
    "page: fault 18 behind a set that is not blocking",
    "page: fault 18, all sets are blocking",
    "page: fault 18, full sheet",
    "page: fault 17 at set 64",
    "page: fault 18 at set 64",
    "page: 1000 sets or more",
    "page: a begun set, judged",
    "page: a begun set with a fault",
    "page long",
    "page long: no set",
    "page long: two sets or more",
    "page long: above job 0",
    "page long: full sheet",
    "page: in another order, passed",
    "page: in another order, another number",
    "page: in another order, a fault",
    "page: two sets joined, passed",
    "page: a set left out, passed",
    "page of one set, as the set",
    "own none as a page",
];

/// Of a page of an accepted sheet, and what was said of it.
pub fn page(sheet: &Sheet, sets: &[Set], check: Result<PageCheck, Fault>) -> Vec<&'static str> {
    let mut kinds = match check {
        Err(Fault { number, place }) if number == SET => bad_set(sheet, sets, place),
        Err(Fault { place, .. }) => shared(sheet, sets, place),
        Ok(PageCheck::Long { job }) => that_hold([
            (true, "page long"),
            (sets.is_empty(), "page long: no set"),
            (sets.len() > 1, "page long: two sets or more"),
            (job > 0, "page long: above job 0"),
            (is_full(sheet), "page long: full sheet"),
        ]),
        Ok(PageCheck::Passed) => passed(sheet, sets),
        Ok(PageCheck::NotPassed { set }) => not_passed(sheet, sets, set),
    };
    kinds.extend((sets.len() >= 1000).then_some("page: 1000 sets or more"));
    kinds
}

/// Whether a job has benches in two of the sets at least.
fn is_between(sets: &[Set], job: &Job) -> bool {
    sets.iter().filter(|&&set| !(Set(job.allowed) & set).is_empty()).count() > 1
}

fn limit(sheet: &Sheet, set: Set) -> u64 {
    set.len() as u64 * sheet.head().target
}

fn passed(sheet: &Sheet, sets: &[Set]) -> Vec<&'static str> {
    let (head, several) = (sheet.head(), sets.len() > 1);
    let all = Set::first(head.benches as usize);
    let weight = |set: Set| weight_of_lightest(sheet, set);
    let between = |heavy: bool| {
        let mut jobs = sheet.jobs().iter().filter(|job| is_heavy(head, job) == heavy);
        jobs.any(|job| is_between(sets, job))
    };
    that_hold([
        (sets.is_empty(), "page passed: empty"),
        (sets.len() == 1, "page passed: one set"),
        (several, "page passed: two sets or more"),
        (sets.len() >= 5, "page passed: five sets or more"),
        (sets.len() == 64, "page passed: 64 sets"),
        (
            sets.iter().any(|&set| weight(set) == Some(limit(sheet, set) + 1)),
            "page passed: a set one above k × T",
        ),
        (!sets.is_empty() && union(sets) != all, "page passed: a bench left out"),
        (several && union(sets) == all, "page passed: all benches, in two sets or more"),
        (!sets.is_sorted_by_key(|set| set.lowest()), "page passed: not by rising benches"),
        (between(true), "page passed: a heavy job between two sets"),
        (between(false), "page passed: a light job between two sets"),
        (several && lightest_placement(sheet, Set::EMPTY).is_none(), "page passed: no placement"),
        (!sets.is_empty() && head.target == 0, "page passed: T = 0"),
        (several && is_full(sheet), "page passed: full sheet, two sets or more"),
    ])
}

fn not_passed(sheet: &Sheet, sets: &[Set], number: usize) -> Vec<&'static str> {
    let (head, set) = (sheet.head(), sets[number]);
    let (earlier, later) = (&sets[..number], &sets[number + 1..]);
    let weight = |set: Set| weight_of_lightest(sheet, set).expect("a placement");
    let weight_before: u64 = earlier.iter().map(|&set| weight(set)).sum();
    let between = |job: &&Job| {
        let benches = Set(job.allowed);
        !is_heavy(head, job) && !(benches - set).is_empty() && (benches - union(sets)).is_empty()
    };
    let light_between: u64 = sheet.jobs().iter().filter(between).map(|job| job.minutes).sum();
    let limit = limit(sheet, set);
    let later_block: Vec<bool> = later.iter().map(|&set| is_blocking(sheet, set)).collect();
    that_hold([
        (number == 0, "page not passed: set 0"),
        (number > 0, "page not passed: a later set"),
        (number > 0 && later.is_empty(), "page not passed: the last of several sets"),
        (later_block.contains(&false), "page not passed: a later set too"),
        (
            sets.len() > 2 && !later_block.contains(&false),
            "page not passed: all others are blocking",
        ),
        (is_blocking(sheet, union(sets)), "page not passed: the union is blocking"),
        (weight(set) == limit, "page not passed: k × T"),
        (
            weight(set) + light_between > limit,
            "page not passed: a light job between sets is missing",
        ),
        (
            weight(set) + weight_before > limit,
            "page not passed: the weight of earlier sets is missing",
        ),
        (sets.len() >= 5, "page not passed: five sets or more"),
        (sets.len() == 64, "page not passed: 64 sets"),
        (head.target == 0, "page not passed: T = 0"),
        (is_full(sheet), "page not passed: full sheet"),
    ])
}

fn is_long(sheet: &Sheet) -> bool {
    sheet.jobs().iter().any(|job| job.minutes > sheet.head().target)
}

/// Whether some set before this one is not blocking, where no job is long.
fn behind_not_blocking(sheet: &Sheet, sets: &[Set], number: usize) -> bool {
    !is_long(sheet) && sets[..number].iter().any(|&set| !is_blocking(sheet, set))
}

fn is_bad(sheet: &Sheet, set: Set) -> bool {
    set.is_empty() || !(set - Set::first(sheet.head().benches as usize)).is_empty()
}

/// The sets before this one with which it shares a bench.
fn sharing(sets: &[Set], number: usize) -> Vec<usize> {
    (0..number).filter(|&earlier| !(sets[number] & sets[earlier]).is_empty()).collect()
}

/// How many of the sets behind a fault are looked at for another one.
const LATER: usize = 8;

fn has_later(sets: &[Set], number: usize, holds: impl Fn(usize) -> bool) -> bool {
    (number + 1..sets.len()).take(LATER).any(holds)
}

fn bad_set(sheet: &Sheet, sets: &[Set], number: usize) -> Vec<&'static str> {
    let shares = |number: usize| !sharing(sets, number).is_empty();
    that_hold([
        (sets[number].is_empty(), "page: fault 17, an empty set"),
        (!sets[number].is_empty(), "page: fault 17, a bench that the head lacks"),
        (number == 0, "page: fault 17, set 0"),
        (number > 0, "page: fault 17, a later set"),
        (shares(number), "page: fault 17 at a set that shares a bench"),
        (has_later(sets, number, shares), "page: fault 17 before a shared bench"),
        (
            has_later(sets, number, |later| is_bad(sheet, sets[later])),
            "page: fault 17 before another one",
        ),
        (is_long(sheet), "page: fault 17 before long"),
        (
            behind_not_blocking(sheet, sets, number),
            "page: fault 17 behind a set that is not blocking",
        ),
        (is_full(sheet), "page: fault 17, full sheet"),
        (number == 64, "page: fault 17 at set 64"),
    ])
}

fn shared(sheet: &Sheet, sets: &[Set], number: usize) -> Vec<&'static str> {
    let sharing_sets = sharing(sets, number);
    let has_neighbour = sharing_sets.contains(&(number - 1));
    let long = is_long(sheet);
    let blocks = |&set: &Set| !is_bad(sheet, set) && is_blocking(sheet, set);
    that_hold([
        (sharing_sets == [number - 1], "page: fault 18 with the neighbour alone"),
        (!has_neighbour, "page: fault 18 with an earlier set, not the neighbour"),
        (
            !has_neighbour && !sharing_sets.contains(&0),
            "page: fault 18 with neither the first set nor the neighbour",
        ),
        (sets[..number].contains(&sets[number]), "page: fault 18 with the same set"),
        (
            !long && sharing_sets.iter().all(|&earlier| !is_blocking(sheet, sets[earlier])),
            "page: fault 18 with a set that is not blocking",
        ),
        (has_later(sets, number, |later| is_bad(sheet, sets[later])), "page: fault 18 before 17"),
        (
            has_later(sets, number, |later| !sharing(sets, later).is_empty()),
            "page: fault 18 before another shared bench",
        ),
        (long, "page: fault 18 before long"),
        (
            behind_not_blocking(sheet, sets, number),
            "page: fault 18 behind a set that is not blocking",
        ),
        (
            !long && sets.len() <= 65 && sets.iter().all(blocks),
            "page: fault 18, all sets are blocking",
        ),
        (is_full(sheet), "page: fault 18, full sheet"),
        (number == 64, "page: fault 18 at set 64"),
    ])
}
