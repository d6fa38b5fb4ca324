//! Days whose limits are whole minutes, with benches that lie at them or one minute beside, by jobs
//! and on half of the days by bookings too. Half of the days have check-only jobs among the others.

use super::heavy::{pairs, Shape};
use super::weights;
use crate::codec::sheet::{Head, Job, NOTHING_BOOKED};
use crate::gen::check_only;
use crate::gen::day::{bench_bit, Day};
use crate::rng::Rng;

const SHARES: [(u64, u64); 7] = [(4, 7), (2, 3), (3, 4), (3, 5), (4, 5), (5, 6), (9, 10)];
const SHAPES: [Shape; 7] = [
    Shape::Chain,
    Shape::Cycle,
    Shape::Cycle,
    Shape::Pieces,
    Shape::Forest,
    Shape::Tailed,
    Shape::Parallel,
];

/// A day with two benches or more. Its lowest bench is often overloaded by light jobs.
pub fn tight(rng: &mut Rng, benches: u64) -> Day {
    let (p, q) = rng.pick(&SHARES);
    let target = 3 * q * rng.range(1, 2);
    let head = Head { benches, p, q, target };
    let shape = rng.pick(&SHAPES);
    let mut jobs: Vec<Job> = pairs(rng, shape, benches)
        .into_iter()
        .map(|[one, two]| Job {
            minutes: weights::heavy(rng, head),
            allowed: bench_bit(one) | bench_bit(two),
        })
        .collect();
    let rocks = jobs.clone();
    let mut booked = NOTHING_BOOKED;
    let has_bookings = rng.one_in(2);
    for bench in 0..benches {
        let own = own_load(rng, head, &rocks, bench);
        let booking = if has_bookings { rng.range(0, own) } else { 0 };
        booked[bench as usize] = booking;
        load(rng, head, &mut jobs, bench, own - booking);
    }
    if !rng.one_in(4) {
        let bound = (5 * q + p) * target / (3 * q);
        load(rng, head, &mut jobs, 0, bound);
    }
    if rng.one_in(2) {
        rng.shuffle(&mut jobs);
    }
    check_only::add(rng, head, &mut jobs);
    Day { head, booked, jobs }
}

/// An own load that, with none, one or two of the bench's rocks, is about a limit.
fn own_load(rng: &mut Rng, head: Head, rocks: &[Job], bench: u64) -> u64 {
    let Head { p, q, target, .. } = head;
    let limit = rng.pick(&[5 * q + p, 5 * q + p, 5 * q - 2 * p]) * target / (3 * q);
    let mut here: Vec<u64> =
        rocks.iter().filter(|rock| rock.allows(bench)).map(|rock| rock.minutes).collect();
    rng.shuffle(&mut here);
    let with: u64 = here.iter().take(rng.below(3)).sum();
    match rng.below(4) {
        0 => rng.range(0, target / 3),
        _ => (limit + rng.range(0, 2)).saturating_sub(with + 1),
    }
}

/// Jobs that start on a bench, of so many minutes: light ones that may go to higher benches, or
/// ones that may not. The target is at least 2.
pub fn load(rng: &mut Rng, head: Head, jobs: &mut Vec<Job>, bench: u64, minutes: u64) {
    let mut left = minutes;
    while left > 0 {
        let minutes = rng.range(1, left).min(weights::most_light(head));
        left -= minutes;
        let mut allowed = bench_bit(bench);
        if bench + 1 < head.benches && !rng.one_in(3) {
            allowed |= bench_bit(rng.range(bench + 1, head.benches - 1));
        }
        jobs.push(Job { minutes, allowed });
    }
}
