//! Full days on which every job is light and has a choice: 512 jobs on 64 benches, each of two
//! benches or more. Fault 12 lets no such day have three or more for its longest job.

use super::light::{allowed, Choice};
use super::weights;
use crate::codec::sheet::{Head, Job, MAX_BENCHES, MAX_JOBS};
use crate::gen::day::{bench_bit, Day};
use crate::rng::Rng;

/// Jobs of `least` to `most` minutes with such a choice, and a longest one of two benches, so long
/// that fault 12 leaves the others theirs.
pub fn random(rng: &mut Rng, head: Head, [least, most]: [u64; 2], choice: Choice) -> Day {
    let job = |_| Job { minutes: rng.range(least, most), allowed: two_or_more(rng, choice) };
    let mut jobs: Vec<Job> = (1..MAX_JOBS).map(job).collect();
    let minutes = (head.q * most).div_ceil(head.p);
    jobs.push(Job { minutes, allowed: two_or_more(rng, Choice::Few) });
    rng.shuffle(&mut jobs);
    Day::new(head, jobs)
}

fn two_or_more(rng: &mut Rng, choice: Choice) -> u64 {
    loop {
        let benches = allowed(rng, choice, MAX_BENCHES);
        if benches.count_ones() >= 2 {
            return benches;
        }
    }
}

/// A ladder of so many steps, with a long run. Long light jobs lie on its benches: `lowest` of them
/// on bench 0, and one on each of the next, which may go one bench up. All other jobs are small,
/// may go everywhere, and start on bench 0. While bench 0 is overloaded they are the first to move,
/// and as long as one of them is on a bench, every bench above is one level higher: so all go to
/// the next bench before the first goes on, up to the ladder's end. Only then a long job moves.
pub fn ladder(rng: &mut Rng, head: Head, steps: u64, lowest: usize) -> Day {
    let long = |bench| Job {
        minutes: weights::most_light(head),
        allowed: bench_bit(bench) | bench_bit(bench + 1),
    };
    let mut up: Vec<Job> = (1..steps).map(long).collect();
    up.extend(vec![long(0); lowest]);
    // A bench is ready for the last of the small jobs beside a long one and all the others.
    let most = 5 * (head.q - head.p) * head.target / (3 * head.q * MAX_JOBS as u64);
    let small = |_| Job { minutes: rng.range(1, most), allowed: u64::MAX };
    let mut jobs: Vec<Job> = (up.len()..MAX_JOBS).map(small).collect();
    jobs.append(&mut up);
    Day::new(head, jobs)
}
