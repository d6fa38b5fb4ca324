//! What the check of a list, of a set or of a page of sets must say, from the sheet alone.

use super::{every_placement, is_blocking, judge_fullest, judge_loads, load_of, require};
use crate::codec::fault::{Fault, SET, SHARED};
use crate::codec::sheet::Sheet;
use crate::planner::checker::{ListCheck, PageCheck, SetCheck};
use crate::planner::set::Set;

/// The most benches of a sheet on which the sets of a page are judged by every placement.
const FEW_BENCHES: u64 = 6;

/// A list with one place a job.
pub fn judge_list(sheet: &Sheet, places: &[u64], check: ListCheck) -> Result<(), &'static str> {
    let benches = 0..sheet.head().benches as usize;
    let loads: Vec<u64> = benches.map(|bench| load_of(sheet, places, bench)).collect();
    let passes = judge_loads(sheet, places, &loads);
    match check {
        ListCheck::NotPassed => require(passes.is_err(), "the list is to pass"),
        ListCheck::Passed { largest, fullest } => {
            passes?;
            judge_fullest(largest, fullest, &loads)
        }
    }
}

/// A set of benches of the head, not empty.
pub fn judge_set(sheet: &Sheet, set: Set, check: SetCheck) -> Result<(), &'static str> {
    let long = lowest_long(sheet);
    match check {
        SetCheck::Long { job } => require(long == Some(job), "not the lowest long job"),
        _ if long.is_some() => Err("a job is long"),
        SetCheck::Passed => require(is_blocking(sheet, set), "the set is not blocking"),
        SetCheck::NotPassed => require(!is_blocking(sheet, set), "the set is blocking"),
    }
}

/// A page of sets of an accepted sheet, and a table with room.
pub fn judge_page(
    sheet: &Sheet,
    sets: &[Set],
    check: Result<PageCheck, Fault>,
) -> Result<(), &'static str> {
    let fault = page_fault(sheet, sets);
    let check = match check {
        Err(_) => return require(check.err() == fault, "not the page's first fault"),
        Ok(check) => check,
    };
    require(fault.is_none(), "the page has a fault")?;
    let long = lowest_long(sheet);
    let all_block = |sets: &[Set]| sets.iter().all(|&set| blocks(sheet, set));
    match check {
        PageCheck::Long { job } => require(long == Some(job), "not the lowest long job"),
        _ if long.is_some() => Err("a job is long"),
        PageCheck::Passed => require(all_block(sets), "a set of the page is not blocking"),
        PageCheck::NotPassed { set } => {
            require(set < sets.len(), "the page has no such set")?;
            require(!blocks(sheet, sets[set]), "the set that is named is blocking")?;
            require(all_block(&sets[..set]), "an earlier set is not blocking")
        }
    }
}

fn lowest_long(sheet: &Sheet) -> Option<usize> {
    sheet.jobs().iter().position(|job| job.minutes > sheet.head().target)
}

fn blocks(sheet: &Sheet, set: Set) -> bool {
    match sheet.head().benches {
        ..=FEW_BENCHES => every_placement::is_blocking(sheet, set),
        _ => is_blocking(sheet, set),
    }
}

/// The first set's that has one: 17, or 18 by a bench of it and an earlier set that has the bench.
fn page_fault(sheet: &Sheet, sets: &[Set]) -> Option<Fault> {
    let is_foreign = |&bench: &usize| bench as u64 >= sheet.head().benches;
    let fault = |number: usize| {
        let benches: Vec<usize> = sets[number].collect();
        if benches.is_empty() || benches.iter().any(is_foreign) {
            return Some(Fault::new(SET, number));
        }
        let is_earlier = |&bench: &usize| sets[..number].iter().any(|other| other.has(bench));
        benches.iter().any(is_earlier).then(|| Fault::new(SHARED, number))
    };
    (0..sets.len()).find_map(fault)
}
