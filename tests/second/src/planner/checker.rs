//! Requests S-6 and S-7: lists of places, sets of benches and pages of sets that come from elsewhere
//! are held against the sheet and its own target.

use super::algorithm::{fullest, Planner};
use super::bay::Limits;
use super::least::least_weight;
use super::set::Set;
use crate::codec::door::Codec;
use crate::codec::fault::{Fault, LIST, NO_ROOM, SET, SHARED};
use crate::codec::sheet::Sheet;

/// What the check of a list says: "a passed list's largest load is returned", with the fullest
/// bench, for "every answer with a largest load carries it".
#[derive(Clone, Copy, Debug, PartialEq, Eq)]
pub enum ListCheck {
    Passed { largest: u64, fullest: usize },
    NotPassed,
}

/// What the check of a set says.
#[derive(Clone, Copy, Debug, PartialEq, Eq)]
pub enum SetCheck {
    Passed,
    NotPassed,
    Long { job: usize },
}

/// What the check of a page says: "the first set that is not blocking is named", by its number.
#[derive(Clone, Copy, Debug, PartialEq, Eq)]
pub enum PageCheck {
    Passed,
    NotPassed { set: usize },
    Long { job: usize },
}

impl Planner {
    /// Checks a list of places; the table for the answer has room or not.
    pub fn check_plan(
        &mut self,
        bytes: &[u8],
        places: impl ExactSizeIterator<Item = u64>,
        has_room: bool,
    ) -> Result<ListCheck, Fault> {
        let sheet = read(&mut self.codec, bytes, has_room)?;
        // "After the sheet's faults, number 16 says that the list does not have one place a job".
        if places.len() != sheet.jobs().len() {
            return Err(Fault::new(LIST, 0));
        }
        Ok(match loads_within_bound(sheet, places) {
            None => ListCheck::NotPassed,
            Some(loads) => {
                let (fullest, largest) = fullest(&loads[..sheet.head().benches as usize]);
                ListCheck::Passed { largest, fullest }
            }
        })
    }

    /// Checks a set of benches; the table for the answer has room or not.
    pub fn check_set(&mut self, bytes: &[u8], set: Set, has_room: bool) -> Result<SetCheck, Fault> {
        let sheet = read(&mut self.codec, bytes, has_room)?;
        // "number 17 that the set is empty or names a bench not in the head". "A fault about a
        // bench in other data has the number of the lowest such bench".
        let foreign = set - Set::first(sheet.head().benches as usize);
        if set.is_empty() || !foreign.is_empty() {
            return Err(Fault::new(SET, foreign.lowest().unwrap_or(0)));
        }
        // "If some job exceeds T, the answer to a set is long with the lowest such job, after the
        // faults."
        if let Some(job) = lowest_long(sheet) {
            return Ok(SetCheck::Long { job });
        }
        Ok(if blocks(sheet, set) { SetCheck::Passed } else { SetCheck::NotPassed })
    }

    /// Checks a page of sets; the table for the answer has room or not.
    pub fn check_page(
        &mut self,
        bytes: &[u8],
        mut sets: impl Iterator<Item = Set> + Clone,
        has_room: bool,
    ) -> Result<PageCheck, Fault> {
        let sheet = read(&mut self.codec, bytes, has_room)?;
        try_page(sheet, sets.clone())?;
        // "After the faults, a job above T makes the answer long, as for one set."
        if let Some(job) = lowest_long(sheet) {
            return Ok(PageCheck::Long { job });
        }
        // "Otherwise the first set that is not blocking is named; an empty page passes".
        Ok(match sets.position(|set| !blocks(sheet, set)) {
            Some(set) => PageCheck::NotPassed { set },
            None => PageCheck::Passed,
        })
    }
}

/// "Sets are tried for faults in page order, each for 17 and then for number 18, that it shares a
/// bench with an earlier one; the place of both is the set's number."
fn try_page(sheet: &Sheet, sets: impl Iterator<Item = Set>) -> Result<(), Fault> {
    let all = Set::first(sheet.head().benches as usize);
    let mut earlier = Set::EMPTY;
    for (number, set) in sets.enumerate() {
        if set.is_empty() || !(set - all).is_empty() {
            return Err(Fault::new(SET, number));
        }
        if !(set & earlier).is_empty() {
            return Err(Fault::new(SHARED, number));
        }
        earlier |= set;
    }
    Ok(())
}

fn lowest_long(sheet: &Sheet) -> Option<usize> {
    sheet.jobs().iter().position(|job| job.minutes > sheet.head().target)
}

/// "more than k × T. Where no placement exists every non-empty set is blocking." No job is longer
/// than T.
fn blocks(sheet: &Sheet, set: Set) -> bool {
    let limit = set.len() as u64 * sheet.head().target;
    least_weight(sheet, set).is_none_or(|weight| weight > limit)
}

/// Reads a sheet. A table without room for the answer is fault 13, after the sheet's.
fn read<'a>(codec: &'a mut Codec, bytes: &[u8], has_room: bool) -> Result<&'a Sheet, Fault> {
    let sheet = codec.read(bytes)?;
    if has_room {
        Ok(sheet)
    } else {
        Err(Fault::new(NO_ROOM, 0))
    }
}

/// The loads of a list, if "each job is on an allowed bench and no load exceeds the bound for the
/// sheet's target".
fn loads_within_bound(sheet: &Sheet, places: impl Iterator<Item = u64>) -> Option<[u64; 64]> {
    let mut loads = *sheet.booked();
    for (job, place) in sheet.jobs().iter().zip(places) {
        if place >= 64 || !job.allows(place) {
            return None;
        }
        loads[place as usize] += job.minutes;
    }
    // "A load is within the demand's bound if 3q × load ≤ (5q + p) × T."
    let limits = Limits::of(sheet.head());
    loads.iter().all(|load| limits.scale * load <= limits.bound).then_some(loads)
}
