//! Request S-4: the best target that the planner can vouch for. Where refusal is not monotone in
//! the target, the answer depends on which targets are tried, so that they are those of the request
//! and no others.

use super::algorithm::{answer, read, Answer, Counts, Planner, Rooms};
use crate::codec::fault::Fault;
use crate::codec::sheet::{Job, Sheet};

/// "at most 31 targets are run".
pub const MOST_RUNS: u64 = 31;

/// "a target with its plan", and the number of targets run. The tables are lent by the planner.
#[derive(Clone, Copy, Debug, PartialEq, Eq)]
pub struct Best<'a> {
    pub target: u64,
    pub runs: u64,
    pub largest: u64,
    pub moves: u64,
    pub fullest: usize,
    pub places: &'a [u64],
    pub loads: &'a [u64],
}

impl<'a> Best<'a> {
    /// The plan as an answer to the sheet with this target.
    pub fn plan(&self) -> Answer<'a> {
        let Best { largest, moves, fullest, places, loads, .. } = *self;
        Answer::Plan { largest, moves, fullest, places, loads }
    }
}

/// "The search starts at the total of all minutes plus the largest booking".
pub fn start(sheet: &Sheet) -> u64 {
    let minutes = |job: &Job| job.minutes;
    let total: u64 = sheet.jobs().iter().map(minutes).sum();
    let largest_booking = sheet.booked().iter().max();
    total + largest_booking.unwrap_or(&0)
}

/// A target, what its run gave, and the number of targets run.
#[derive(Clone, Copy, Debug, PartialEq, Eq)]
pub struct Found<P> {
    pub target: u64,
    pub plan: P,
    pub runs: u64,
}

/// The search by itself; `run` gives the plan of a target, or none where the target is refused.
pub fn search<P>(start: u64, mut run: impl FnMut(u64) -> Option<P>) -> Found<P> {
    // "the lowest target known to give a plan and one more than the highest known to be refused (at
    // first 0)". "The start is run first and counted".
    let (mut high, mut low) = (start, 0);
    let mut plan = run(high).expect("at the start \"a plan always exists\"");
    let mut runs = 1;
    // "tries the middle of the two rounded down, and stops when they meet".
    while low < high {
        let middle = (low + high) / 2;
        runs += 1;
        assert!(runs <= MOST_RUNS, "more targets than are run at most");
        match run(middle) {
            Some(found) => (high, plan) = (middle, found),
            None => low = middle + 1,
        }
    }
    Found { target: high, plan, runs }
}

impl Planner {
    /// "Ignoring the sheet's own target, return a target with its plan such that the target one
    /// below was refused, or the target is 0."
    pub fn best(&mut self, bytes: &[u8], rooms: Rooms) -> Result<Best<'_>, Fault> {
        let Planner { codec, tables, counts } = self;
        *counts = Counts::default();
        let sheet = read(codec, bytes, rooms)?;
        // A refused target leaves the tables as the last plan has filled them.
        let found = search(start(sheet), |target| {
            match answer(&sheet.with_target(target), tables, counts) {
                Answer::Plan { largest, moves, fullest, .. } => Some((largest, moves, fullest)),
                Answer::Long { .. } | Answer::None { .. } => None,
            }
        });
        let Found { target, plan: (largest, moves, fullest), runs } = found;
        let (places, loads) = tables.of(sheet);
        Ok(Best { target, runs, largest, moves, fullest, places, loads })
    }
}
