//! Days with many plans whose loads are equal: every job has a choice, and some jobs are alike.

use super::days::{self, Size};
use crate::gen::day::{bench_bit, Day};
use crate::rng::Rng;

/// As `days::any`, where a job with one bench gets another, if the head has one, and about a third
/// of the jobs are copies of others. The longest job stays, and no job with two benches is refused,
/// so that the day is accepted.
pub fn alike(rng: &mut Rng, size: Size) -> Day {
    let Day { head, booked, mut jobs } = days::any(rng, size);
    for job in &mut jobs {
        while head.benches > 1 && job.allowed.count_ones() < 2 {
            job.allowed |= bench_bit(rng.range(0, head.benches - 1));
        }
    }
    let longest = (0..jobs.len()).max_by_key(|&job| jobs[job].minutes);
    for job in 0..jobs.len() {
        if Some(job) != longest && rng.one_in(3) {
            jobs[job] = rng.pick(&jobs);
        }
    }
    Day { head, booked, jobs }
}
