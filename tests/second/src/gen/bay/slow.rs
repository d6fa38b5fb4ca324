//! Days whose run is long, found by small changes that do not make it shorter.

use super::light::{allowed, CHOICES};
use super::weights;
use crate::gen::day::{bench_bit, Day};
use crate::planner::algorithm::{Answer, Counts, Planner, Rooms};
use crate::rng::Rng;

/// What a run is measured by.
pub type Cost = fn(moves: u64, counts: &Counts) -> u64;

pub const MOVES: Cost = |moves, _| moves;
/// Rounds and fake orientations: about what the time goes with.
pub const ROUNDS: Cost = |_, counts| counts.explored.rounds + counts.explored.fakes;

/// The cost of a day's run, 0 where there is none.
pub fn cost(planner: &mut Planner, day: &Day, cost: Cost) -> u64 {
    match planner.plan(&day.draft().bytes(), Rooms::FULL) {
        Ok(Answer::Plan { moves, .. } | Answer::None { moves, .. }) => {
            cost(moves, planner.counts())
        }
        _ => 0,
    }
}

/// Changes a day `steps` times and keeps each change that does not lower the cost.
pub fn climb(rng: &mut Rng, planner: &mut Planner, day: Day, steps: usize, by: Cost) -> Day {
    let mut most = cost(planner, &day, by);
    let mut best = day;
    for _ in 0..steps {
        let mut next = best.clone();
        for _ in 0..rng.range(1, 8) {
            change(rng, &mut next);
        }
        let found = cost(planner, &next, by);
        if found >= most {
            (best, most) = (next, found);
        }
    }
    best
}

/// Changes one job's minutes or benches, exchanges two jobs, or moves the target a little.
fn change(rng: &mut Rng, day: &mut Day) {
    let Day { head, jobs, .. } = day;
    let (one, two) = (rng.below(jobs.len()), rng.below(jobs.len()));
    match rng.below(7) {
        0 => jobs.swap(one, two),
        1 => jobs[one].minutes = weights::light(rng, *head, jobs[two].minutes),
        2 => {
            let choice = rng.pick(&CHOICES);
            jobs[one].allowed = allowed(rng, choice, head.benches);
        }
        3 => jobs[one].allowed ^= bench_bit(rng.range(0, head.benches - 1)),
        4 => jobs[one] = jobs[two],
        5 if jobs[one].allowed.count_ones() <= 2 => jobs[one].minutes = weights::heavy(rng, *head),
        6 => head.target = (head.target + rng.range(0, 4)).saturating_sub(2).max(1),
        _ => {}
    }
}
