//! Planning, finding the best target, comparing and checking as the static library offers them:
//! tables of 8-byte numbers, least significant byte first, and a result word. The layouts of the
//! answer tables stand here alone.

use super::algorithm::{Answer, Comparison, Planner, Rooms};
use super::best::Best;
use super::checker::{ListCheck, PageCheck, SetCheck};
use super::set::Set;
use crate::codec::door::{numbers, word, ENTRY_BYTES};

/// The value of the result word for each answer.
pub const PLAN: u64 = 1;
pub const LONG: u64 = 2;
pub const NONE: u64 = 3;

/// The value of the result word for a best target.
pub const BEST: u64 = 1;

/// The value of the result word for each outcome of a comparison.
pub const DIFFERENT: u64 = 0;
pub const SAME: u64 = 1;

/// The value of the result word for each outcome of a check. A set and a page have `LONG` besides.
pub const NOT_PASSED: u64 = 0;
pub const PASSED: u64 = 1;

/// The entries of the answer table: largest load, moves and fullest bench of a plan; job, 0 and 0
/// of a long one; set of benches, moves and 0 of a none.
pub const ANSWER_ENTRIES: usize = 3;

/// The entries of the answer table of a best target: target, largest load, moves and fullest bench
/// of its plan, and the number of targets run.
pub const BEST_ENTRIES: usize = 5;

/// The entries of the answer table of a list: largest load and fullest bench of a passed one.
pub const CHECK_PLAN_ENTRIES: usize = 2;

/// The entries of the answer table of a set: the job of a long one.
pub const CHECK_SET_ENTRIES: usize = 1;

/// The entries of the answer table of a page: the set of one that is not passed, the job of a long
/// one.
pub const CHECK_PAGE_ENTRIES: usize = 1;

/// The entries that a table has room for: a begun one is no room.
fn room(table: &[u8]) -> usize {
    table.len() / ENTRY_BYTES
}

/// The room for places and loads. A short answer table is tried with the others: every sheet has a
/// bench, so that a table of loads without room is fault 13.
fn rooms(places: &[u8], loads: &[u8], answer: &[u8], entries: usize) -> Rooms {
    let has_answer = room(answer) >= entries;
    Rooms { places: room(places), loads: if has_answer { room(loads) } else { 0 } }
}

fn put(table: &mut [u8], values: &[u64]) {
    for (entry, value) in table.chunks_exact_mut(ENTRY_BYTES).zip(values) {
        entry.copy_from_slice(&value.to_le_bytes());
    }
}

/// Plans a sheet. Later bytes of each table keep their contents; after a fault all do, and after
/// long or none those of places and loads.
pub fn plan(
    planner: &mut Planner,
    sheet: &[u8],
    places: &mut [u8],
    loads: &mut [u8],
    answer: &mut [u8],
) -> u64 {
    match planner.plan(sheet, rooms(places, loads, answer, ANSWER_ENTRIES)) {
        Err(fault) => word(Err(fault)),
        Ok(Answer::Long { job }) => {
            put(answer, &[job as u64, 0, 0]);
            LONG
        }
        Ok(Answer::None { benches, moves }) => {
            put(answer, &[benches.0, moves, 0]);
            NONE
        }
        Ok(Answer::Plan { largest, moves, fullest, places: benches, loads: minutes }) => {
            put(answer, &[largest, moves, fullest as u64]);
            put(places, benches);
            put(loads, minutes);
            PLAN
        }
    }
}

/// Finds the best target of a sheet. Later bytes of each table keep their contents, and after a
/// fault all do.
pub fn best(
    planner: &mut Planner,
    sheet: &[u8],
    places: &mut [u8],
    loads: &mut [u8],
    answer: &mut [u8],
) -> u64 {
    match planner.best(sheet, rooms(places, loads, answer, BEST_ENTRIES)) {
        Err(fault) => word(Err(fault)),
        Ok(Best { target, runs, largest, moves, fullest, places: benches, loads: minutes }) => {
            put(answer, &[target, largest, moves, fullest as u64, runs]);
            put(places, benches);
            put(loads, minutes);
            BEST
        }
    }
}

/// Compares two lists of places. In a list a begun entry counts and missing bytes are 0.
pub fn compare(planner: &mut Planner, sheet: &[u8], first: &[u8], second: &[u8]) -> u64 {
    let [first, second]: [Vec<u64>; 2] = [first, second].map(|table| numbers(table).collect());
    match planner.compare(sheet, &first, &second) {
        Err(fault) => word(Err(fault)),
        Ok(Comparison::Same) => SAME,
        Ok(Comparison::Different) => DIFFERENT,
    }
}

/// Checks a list of places. In the list a begun entry counts and missing bytes are 0. Later bytes of
/// the answer table keep their contents, and after a fault all do.
pub fn check_plan(planner: &mut Planner, sheet: &[u8], places: &[u8], answer: &mut [u8]) -> u64 {
    let has_room = room(answer) >= CHECK_PLAN_ENTRIES;
    match planner.check_plan(sheet, numbers(places), has_room) {
        Err(fault) => word(Err(fault)),
        Ok(ListCheck::NotPassed) => {
            put(answer, &[0, 0]);
            NOT_PASSED
        }
        Ok(ListCheck::Passed { largest, fullest }) => {
            put(answer, &[largest, fullest as u64]);
            PASSED
        }
    }
}

/// Checks a set of benches. Later bytes of the answer table keep their contents, and after a fault
/// all do.
pub fn check_set(planner: &mut Planner, sheet: &[u8], set: u64, answer: &mut [u8]) -> u64 {
    let has_room = room(answer) >= CHECK_SET_ENTRIES;
    let (entry, word) = match planner.check_set(sheet, Set(set), has_room) {
        Err(fault) => return word(Err(fault)),
        Ok(SetCheck::NotPassed) => (0, NOT_PASSED),
        Ok(SetCheck::Passed) => (0, PASSED),
        Ok(SetCheck::Long { job }) => (job as u64, LONG),
    };
    put(answer, &[entry]);
    word
}

/// Checks a page of sets. On the page a begun entry counts and missing bytes are 0. Later bytes of
/// the answer table keep their contents, and after a fault all do.
pub fn check_page(planner: &mut Planner, sheet: &[u8], page: &[u8], answer: &mut [u8]) -> u64 {
    let has_room = room(answer) >= CHECK_PAGE_ENTRIES;
    let (entry, word) = match planner.check_page(sheet, numbers(page).map(Set), has_room) {
        Err(fault) => return word(Err(fault)),
        Ok(PageCheck::NotPassed { set }) => (set as u64, NOT_PASSED),
        Ok(PageCheck::Passed) => (0, PASSED),
        Ok(PageCheck::Long { job }) => (job as u64, LONG),
    };
    put(answer, &[entry]);
    word
}
