//! Check-only jobs: those of 0 minutes.

use super::bay::light::{allowed, CHOICES};
use super::bookings;
use super::day::{share, Day};
use crate::codec::sheet::{Head, Job};
use crate::rng::Rng;

/// Gives some jobs 0 minutes on half of the calls, now and then all. Else the longest job keeps its
/// minutes, so that fault 12 refuses none that it did not refuse before.
pub fn make(rng: &mut Rng, jobs: &mut [Job]) {
    if jobs.is_empty() || rng.one_in(2) {
        return;
    }
    let longest = (0..jobs.len()).max_by_key(|&job| jobs[job].minutes).unwrap_or(0);
    let all = jobs.len() == 1 || rng.one_in(12);
    let often = rng.pick(&[2, 4, 8, 64]);
    let sure = (longest + rng.range(1, jobs.len().max(2) as u64 - 1) as usize) % jobs.len();
    for (number, job) in jobs.iter_mut().enumerate() {
        if all || number == sure || number != longest && rng.one_in(often) {
            job.minutes = 0;
        }
    }
}

/// Puts one to three check-only jobs among the jobs, on half of the calls.
pub fn add(rng: &mut Rng, head: Head, jobs: &mut Vec<Job>) {
    if rng.one_in(2) {
        return;
    }
    for _ in 0..rng.range(1, 3) {
        let place = rng.below(jobs.len() + 1);
        jobs.insert(place, any(rng, head.benches));
    }
}

fn any(rng: &mut Rng, benches: u64) -> Job {
    let choice = rng.pick(&CHOICES);
    Job { minutes: 0, allowed: allowed(rng, choice, benches) }
}

/// A day that has no other jobs. Half of the days have T = 0, and half have booked benches, some of
/// them above the bound.
pub fn only(rng: &mut Rng, benches: u64, count: usize) -> Day {
    let (p, q) = share(rng);
    let target = if rng.one_in(2) { 0 } else { rng.range(1, 40) };
    let bound = (5 * q + p) * target / (3 * q);
    let most = if rng.one_in(2) { bound } else { bound + 1 };
    let booked = bookings::some(rng, benches, |rng| {
        let some = rng.range(0, most);
        rng.pick(&[1, target, most, some]).max(1)
    });
    let jobs = (0..count).map(|_| any(rng, benches)).collect();
    Day { head: Head { benches, p, q, target }, booked, jobs }
}
