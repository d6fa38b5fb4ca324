//! Targets around the one where none turns to plan.

use crate::gen::day::Day;
use crate::planner::algorithm::{Answer, Planner, Rooms};

fn with_target(day: &Day, target: u64) -> Day {
    let mut day = day.clone();
    day.head.target = target;
    day
}

fn has_plan(planner: &mut Planner, day: &Day) -> bool {
    let sheet = day.draft().bytes();
    matches!(planner.plan(&sheet, Rooms::FULL), Ok(Answer::Plan { .. }))
}

/// A target with a plan, where the next lower one has none or makes a job long. Found by halving,
/// between the longest job and all jobs on the bench with the largest booking.
pub fn turning_target(planner: &mut Planner, day: &Day) -> u64 {
    let minutes = || day.jobs.iter().map(|job| job.minutes);
    let most_booked = day.booked.iter().max().unwrap_or(&0);
    let (mut low, mut high) = (minutes().max().unwrap_or(0), minutes().sum::<u64>() + most_booked);
    while low < high {
        let middle = low + (high - low) / 2;
        if has_plan(planner, &with_target(day, middle)) {
            high = middle;
        } else {
            low = middle + 1;
        }
    }
    high
}

/// The day with the targets just below, at and just above its turning point.
pub fn around(planner: &mut Planner, day: &Day) -> Vec<Day> {
    let target = turning_target(planner, day);
    (target.saturating_sub(2)..=target + 1).map(|target| with_target(day, target)).collect()
}
