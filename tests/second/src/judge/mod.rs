//! What an answer must be, read from the sheet alone and found by search, never by the run.
//!
//! Of every sheet, whatever its size: a plan is an assignment with its loads within the bound and
//! names the fullest bench, a none's set is blocking, long is the lowest job above T. Of a sheet
//! with few assignments besides: where one of them keeps every bench within T, the answer is a
//! plan.
//!
//! - `best`: what a best target must be.
//! - `checks`: what the check of a list, of a set or of a page of sets must say.
//! - `comparison`: what the comparison of two lists must say.
//! - `every_placement`: blocking sets by every placement of all heavy jobs.

pub mod best;
pub mod checks;
pub mod comparison;
pub mod every_placement;

#[cfg(test)]
mod best_tests;
#[cfg(test)]
mod checks_tests;
#[cfg(test)]
mod comparison_tests;
#[cfg(test)]
mod judge_tests;

use crate::codec::sheet::{Head, Job, Sheet};
use crate::planner::algorithm::{is_assignment, Answer};
use crate::planner::bay::is_heavy;
use crate::planner::set::Set;

/// Judges the answer to a sheet, or says what is wrong with it.
pub fn judge(sheet: &Sheet, answer: &Answer) -> Result<(), &'static str> {
    let target = sheet.head().target;
    let long = sheet.jobs().iter().position(|job| job.minutes > target);
    match *answer {
        Answer::Long { job } => require(long == Some(job), "not the lowest long job"),
        _ if long.is_some() => Err("a job is long"),
        Answer::Plan { largest, moves, fullest, places, loads } => {
            judge_moves(sheet, moves)?;
            judge_loads(sheet, places, loads)?;
            judge_fullest(largest, fullest, loads)
        }
        Answer::None { benches, moves } => {
            judge_moves(sheet, moves)?;
            require(is_blocking(sheet, benches), "the set is not blocking")
        }
    }
}

fn require(holds: bool, what: &'static str) -> Result<(), &'static str> {
    if holds {
        Ok(())
    } else {
        Err(what)
    }
}

/// Moves are at most benches × light jobs with a choice.
fn judge_moves(sheet: &Sheet, moves: u64) -> Result<(), &'static str> {
    let head = sheet.head();
    let has_choice = |job: &&Job| job.allowed.count_ones() > 1 && !is_heavy(head, job);
    let most = head.benches * sheet.jobs().iter().filter(has_choice).count() as u64;
    require(moves <= most, "more moves than there can be")
}

/// The places are an assignment, and these are its loads, one for each bench of the head.
fn judge_loads(sheet: &Sheet, places: &[u64], loads: &[u64]) -> Result<(), &'static str> {
    let Head { benches, p, q, target } = sheet.head();
    require(is_assignment(sheet, places), "a job is not on an allowed bench")?;
    require(loads.len() == benches as usize, "not one load for each bench")?;
    for (bench, &load) in loads.iter().enumerate() {
        require(load == load_of(sheet, places, bench), "a load is wrong")?;
        // "A load is within the demand's bound if 3q × load ≤ (5q + p) × T."
        require(3 * q * load <= (5 * q + p) * target, "a load is above the bound")?;
    }
    Ok(())
}

/// "A bench's load under it is the sum of the minutes of the jobs put there." Booked minutes "count
/// in loads, in the bound".
pub fn load_of(sheet: &Sheet, places: &[u64], bench: usize) -> u64 {
    let here = sheet.jobs().iter().zip(places).filter(|&(_, &place)| place == bench as u64);
    sheet.booked()[bench] + here.map(|(job, _)| job.minutes).sum::<u64>()
}

/// No load is above the largest, the fullest bench has it, "the lowest on a tie".
fn judge_fullest(largest: u64, fullest: usize, loads: &[u64]) -> Result<(), &'static str> {
    require(loads.iter().max() == Some(&largest), "not the largest load")?;
    require(fullest < loads.len(), "the head lacks the fullest bench")?;
    require(loads[fullest] == largest, "the fullest bench has less than the largest load")?;
    let lower = &loads[..fullest];
    require(lower.iter().all(|&load| load < largest), "a lower bench is as full as the fullest")
}

/// Some assignment keeps every bench within T. Tries them all, but for those that a bench above T
/// rules out; `None` where that takes more than `steps`. "The rival is bound by the bookings too."
pub fn has_rival(sheet: &Sheet, steps: u64) -> Option<bool> {
    if sheet.booked().iter().any(|&minutes| minutes > sheet.head().target) {
        return Some(false);
    }
    let mut search = Search { sheet, loads: *sheet.booked(), steps };
    search.assign(0)
}

struct Search<'a> {
    sheet: &'a Sheet,
    loads: [u64; 64],
    steps: u64,
}

impl Search<'_> {
    fn assign(&mut self, number: usize) -> Option<bool> {
        let Some(job) = self.sheet.jobs().get(number) else { return Some(true) };
        for bench in Set(job.allowed) {
            self.steps = self.steps.checked_sub(1)?;
            self.loads[bench] += job.minutes;
            let fits = self.loads[bench] <= self.sheet.head().target;
            let found = fits && self.assign(number + 1)?;
            self.loads[bench] -= job.minutes;
            if found {
                return Some(true);
            }
        }
        Some(false)
    }
}

/// "A non-empty set of k benches is blocking if in every placement the heavy jobs placed inside it,
/// plus all light jobs whose benches all lie inside it, weigh more than k × T. Where no placement
/// exists every non-empty set is blocking." Booked minutes count "in a blocking set that holds the
/// bench; they are never a heavy job".
pub fn is_blocking(sheet: &Sheet, set: Set) -> bool {
    let head = sheet.head();
    if set.is_empty() || !(set - Set::first(head.benches as usize)).is_empty() {
        return false;
    }
    weight_of_lightest(sheet, set).is_none_or(|weight| weight > set.len() as u64 * head.target)
}

/// The weight that the lightest placement leaves in a set, with the light jobs that lie inside and
/// the bookings; none where there is no placement.
pub fn weight_of_lightest(sheet: &Sheet, set: Set) -> Option<u64> {
    let head = sheet.head();
    let inside = |job: &&Job| !is_heavy(head, job) && (Set(job.allowed) - set).is_empty();
    let light: u64 = sheet.jobs().iter().filter(inside).map(|job| job.minutes).sum();
    let booked: u64 = set.map(|bench| sheet.booked()[bench]).sum();
    lightest_placement(sheet, set).map(|heavy| booked + light + heavy)
}

/// The least that the heavy jobs inside a set weigh in a placement, or none where there is no
/// placement.
pub fn lightest_placement(sheet: &Sheet, set: Set) -> Option<u64> {
    let head = sheet.head();
    let mut heavy: Vec<Job> = sheet.jobs().to_vec();
    heavy.retain(|job| is_heavy(head, job));
    let mut total = 0;
    while let Some(first) = heavy.pop() {
        let component = take_component(&mut heavy, first);
        let mut placing = Placing { jobs: &component, set, taken: Set::EMPTY, least: None };
        placing.place(0, 0);
        total += placing.least?;
    }
    Some(total)
}

/// Takes the jobs that are joined with one through common benches. Each but the first shares a
/// bench with an earlier one, so that few beginnings of the list have many placements: jobs that
/// hang together have at most one more than there are jobs.
fn take_component(heavy: &mut Vec<Job>, first: Job) -> Vec<Job> {
    let mut benches = first.allowed;
    let mut component = vec![first];
    while let Some(next) = heavy.iter().position(|job| job.allowed & benches != 0) {
        let job = heavy.remove(next);
        benches |= job.allowed;
        component.push(job);
    }
    component
}

/// Tries every placement of some heavy jobs.
struct Placing<'a> {
    jobs: &'a [Job],
    set: Set,
    taken: Set,
    /// The least weight inside the set so far.
    least: Option<u64>,
}

impl Placing<'_> {
    fn place(&mut self, number: usize, weight: u64) {
        let Some(job) = self.jobs.get(number) else {
            self.least = Some(self.least.map_or(weight, |least| least.min(weight)));
            return;
        };
        for bench in Set(job.allowed) - self.taken {
            self.taken.insert(bench);
            let inside = if self.set.has(bench) { job.minutes } else { 0 };
            self.place(number + 1, weight + inside);
            self.taken.remove(bench);
        }
    }
}
