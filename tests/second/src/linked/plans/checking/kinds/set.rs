//! What the tally counts of a set.

use super::parts::{parts, Part};
use super::{has_check_only, is_full, that_hold};
use second::codec::sheet::{Job, Sheet};
use second::judge::{lightest_placement, weight_of_lightest};
use second::planner::bay::is_heavy;
use second::planner::checker::SetCheck;
use second::planner::set::Set;

/// Of a set that was not refused with a fault, and what was said of it.
pub fn set(sheet: &Sheet, set: Set, check: SetCheck) -> Vec<&'static str> {
    if let SetCheck::Long { job } = check {
        return that_hold([
            (true, "set long"),
            (job > 0, "set long: above job 0"),
            (is_full(sheet), "set long: full sheet"),
        ]);
    }
    let parts = parts(sheet);
    let mut kinds = match weight_of_lightest(sheet, set) {
        None => no_placement(&parts, set),
        Some(weight) if check == SetCheck::Passed => passed(sheet, &parts, set, weight),
        Some(weight) => not_passed(sheet, &parts, set, weight),
    };
    if is_full(sheet) {
        kinds.extend(full(sheet, &parts, set));
    }
    kinds.push(if check == SetCheck::Passed { "set passed" } else { "set not passed" });
    kinds
}

fn no_placement(parts: &[Part], set: Set) -> Vec<&'static str> {
    let crowded = || parts.iter().filter(|part| part.is_crowded());
    let with_two = |part: &Part| part.jobs - part.with_one_bench;
    that_hold([
        (true, "set passed: no placement"),
        (
            crowded().all(|part| with_two(part) < part.benches.len()),
            "set passed: no placement, by heavy jobs with one bench",
        ),
        (
            crowded().all(|part| (part.benches & set).is_empty()),
            "set passed: no placement, by jobs outside",
        ),
    ])
}

/// The most that a placement leaves in a set, where there is one: what the complement has least.
fn heaviest(sheet: &Sheet, set: Set) -> u64 {
    let head = sheet.head();
    let all: u64 =
        sheet.jobs().iter().filter(|job| is_heavy(head, job)).map(|job| job.minutes).sum();
    let outside = Set::first(head.benches as usize) - set;
    all - lightest_placement(sheet, outside).expect("a placement")
}

fn has_bench_without_heavy(parts: &[Part], set: Set) -> bool {
    !parts.iter().fold(set, |left, part| left - part.benches).is_empty()
}

fn passed(sheet: &Sheet, parts: &[Part], set: Set, weight: u64) -> Vec<&'static str> {
    let limit = set.len() as u64 * sheet.head().target;
    let heavy = lightest_placement(sheet, set).expect("a placement");
    let booked: u64 = set.map(|bench| sheet.booked()[bench]).sum();
    let partly =
        |kind: fn(&Part) -> bool| parts.iter().any(|part| part.is_partly_in(set) && kind(part));
    let whole = |job: &&Job| is_heavy(sheet.head(), job) && (Set(job.allowed) - set).is_empty();
    let confined: u64 = sheet.jobs().iter().filter(whole).map(|job| job.minutes).sum();
    that_hold([
        (weight == limit + 1, "set passed: one above k × T"),
        (partly(Part::is_tree), "set passed: a tree partly inside"),
        (partly(Part::is_cycle), "set passed: a cycle partly inside"),
        (partly(Part::is_cycle_of_two), "set passed: a cycle of two partly inside"),
        (
            partly(Part::is_full_by_one_bench),
            "set passed: a heavy job with one bench, partly inside",
        ),
        (has_bench_without_heavy(parts, set), "set passed: a bench inside without a heavy job"),
        (parts.is_empty(), "set passed: no heavy job"),
        (weight - booked <= limit, "set passed: by a booking"),
        (heaviest(sheet, set) > heavy, "set passed: another placement weighs more"),
        (
            weight - (heavy - confined) <= limit,
            "set passed: a heavy job with a bench outside is inside",
        ),
        (has_check_only(sheet), "set passed: with check-only jobs"),
        (limit == 0, "set passed: T = 0"),
        (is_full(sheet), "set passed: full sheet"),
    ])
}

fn not_passed(sheet: &Sheet, parts: &[Part], set: Set, weight: u64) -> Vec<&'static str> {
    let head = sheet.head();
    let limit = set.len() as u64 * head.target;
    let heavy = lightest_placement(sheet, set).expect("a placement");
    let partly =
        |kind: fn(&Part) -> bool| parts.iter().any(|part| part.is_partly_in(set) && kind(part));
    let meets = |job: &&Job| {
        let benches = Set(job.allowed);
        let partly = !(benches & set).is_empty() && !(benches - set).is_empty();
        partly && !is_heavy(head, job)
    };
    let light: u64 = sheet.jobs().iter().filter(meets).map(|job| job.minutes).sum();
    let outside = Set::first(head.benches as usize) - set;
    let booked: u64 = outside.map(|bench| sheet.booked()[bench]).sum();
    that_hold([
        (weight == limit, "set not passed: k × T"),
        (weight + 1 == limit, "set not passed: one below k × T"),
        (partly(Part::is_tree), "set not passed: a tree partly inside"),
        (partly(Part::is_cycle), "set not passed: a cycle partly inside"),
        (partly(Part::is_cycle_of_two), "set not passed: a cycle of two partly inside"),
        (
            partly(Part::is_full_by_one_bench),
            "set not passed: a heavy job with one bench, partly inside",
        ),
        (has_bench_without_heavy(parts, set), "set not passed: a bench inside without a heavy job"),
        (parts.is_empty(), "set not passed: no heavy job"),
        (weight + light > limit, "set not passed: a light job with a bench outside"),
        (
            weight - heavy + heaviest(sheet, set) > limit,
            "set not passed: another placement weighs too much",
        ),
        (weight + booked > limit, "set not passed: a booking outside"),
        (has_check_only(sheet), "set not passed: with check-only jobs"),
        (limit == 0, "set not passed: T = 0"),
        (is_full(sheet), "set not passed: full sheet"),
    ])
}

fn full(sheet: &Sheet, parts: &[Part], set: Set) -> Vec<&'static str> {
    let none = lightest_placement(sheet, set).is_none();
    let crowded = || parts.iter().filter(|part| part.is_crowded());
    let partly = |kind: fn(&Part) -> bool| {
        !none && parts.iter().any(|part| part.is_partly_in(set) && kind(part))
    };
    that_hold([
        (partly(Part::is_tree), "full sheet: a tree partly inside"),
        (partly(Part::is_cycle), "full sheet: a cycle partly inside"),
        (partly(Part::is_cycle_of_two), "full sheet: a cycle of two partly inside"),
        (
            partly(Part::is_full_by_one_bench),
            "full sheet: a heavy job with one bench, partly inside",
        ),
        (
            !none && has_bench_without_heavy(parts, set),
            "full sheet: a bench inside without a heavy job",
        ),
        (none, "full sheet: no placement"),
        (
            none && crowded().all(|part| (part.benches & set).is_empty()),
            "full sheet: no placement, by jobs outside",
        ),
        (
            !none && parts.iter().any(|part| part.benches.len() >= 20),
            "full sheet: a component of 20 benches or more",
        ),
    ])
}
