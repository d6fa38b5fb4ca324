//! What a best target must be. Its plan is judged as an answer to the sheet with that target, the
//! refusal of the one below as an answer to the sheet with that one; what the two answers are is
//! asked of the second planner. On a sheet with few assignments the target is held against the best
//! possible largest load.

use super::{judge, require};
use crate::codec::sheet::{Head, Sheet};
use crate::planner::algorithm::{Answer, Planner};
use crate::planner::best::{start, Best, MOST_RUNS};
use crate::planner::set::Set;

/// Judges the best target of a sheet, or says what is wrong with it.
pub fn judge_best(planner: &mut Planner, sheet: &Sheet, best: &Best) -> Result<(), &'static str> {
    require((1..=MOST_RUNS).contains(&best.runs), "not 1 to 31 targets were run")?;
    let start = start(sheet);
    require(best.target <= start, "a target above the start")?;
    require(best.runs == runs_to(start, best.target), "not the runs from the start to the target")?;
    judge(&sheet.with_target(best.target), &best.plan())?;
    require(planner.plan_at(sheet, best.target) == best.plan(), "not the plan of the target")?;
    judge_below(planner, sheet, best.target)
}

/// Which targets were run follows from the start and the answer, at which the two bounds meet: one
/// at it or above gave a plan, and one below was refused.
fn runs_to(start: u64, target: u64) -> u64 {
    let (mut low, mut high) = (0, start);
    let mut runs = 1;
    while low < high {
        let middle = low + (high - low) / 2;
        (low, high) = if middle < target { (middle + 1, high) } else { (low, middle) };
        runs += 1;
    }
    runs
}

/// "the target one below was refused, or the target is 0".
fn judge_below(planner: &mut Planner, sheet: &Sheet, target: u64) -> Result<(), &'static str> {
    let Some(below) = target.checked_sub(1) else { return Ok(()) };
    let answer = planner.plan_at(sheet, below);
    require(!matches!(answer, Answer::Plan { .. }), "the target one below gives a plan")?;
    judge(&sheet.with_target(below), &answer)
}

/// "The plan is thus within (5/3 + p/(3q)) times the best possible largest load": some assignment
/// has a largest load of at most `load`, so that the target is at most that, too.
pub fn judge_against(sheet: &Sheet, best: &Best, load: u64) -> Result<(), &'static str> {
    let Head { p, q, .. } = sheet.head();
    require(best.target <= load, "an assignment has all loads below the target")?;
    require(3 * q * best.largest <= (5 * q + p) * load, "the largest load is above the bound")
}

/// The best possible largest load: the least that any assignment has. Tries them all, but for those
/// that cannot be better than one that was found; `None` where that takes more than `steps`.
pub fn least_largest_load(sheet: &Sheet, steps: u64) -> Option<u64> {
    let loads = *sheet.booked();
    let booked = loads.into_iter().max().unwrap_or(0);
    let mut search = Search { sheet, loads, steps, least: start(sheet) };
    search.assign(0, booked)?;
    Some(search.least)
}

struct Search<'a> {
    sheet: &'a Sheet,
    loads: [u64; 64],
    steps: u64,
    /// The least largest load so far. No assignment has a load above the start.
    least: u64,
}

impl Search<'_> {
    /// Tries each bench for a job and the ones behind it. `largest` is the largest load so far.
    fn assign(&mut self, number: usize, largest: u64) -> Option<()> {
        let Some(job) = self.sheet.jobs().get(number) else {
            self.least = self.least.min(largest);
            return Some(());
        };
        for bench in Set(job.allowed) {
            self.steps = self.steps.checked_sub(1)?;
            self.loads[bench] += job.minutes;
            let largest = largest.max(self.loads[bench]);
            if largest < self.least {
                self.assign(number + 1, largest)?;
            }
            self.loads[bench] -= job.minutes;
        }
        Some(())
    }
}
