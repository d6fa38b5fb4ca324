//! Whole days for the run. All are accepted.

use super::heavy::{pairs, Shape, SHAPES};
use super::light::{allowed, Choice, CHOICES};
use super::weights;
use crate::codec::sheet::{Head, Job};
use crate::gen::day::{bench_bit, share, Day, MOST_MINUTES};
use crate::gen::{bookings, check_only};
use crate::rng::Rng;

/// The size of a day.
#[derive(Clone, Copy, Debug)]
pub struct Size {
    pub benches: u64,
    pub jobs: usize,
    pub target: u64,
}

pub const FULL: Size = Size { benches: 64, jobs: 512, target: 480 };

/// A size that brute force can judge.
pub fn tiny(rng: &mut Rng) -> Size {
    let target = if rng.one_in(4) { rng.range(1, 200) } else { rng.range(1, 24) };
    Size { benches: rng.range(1, 5), jobs: rng.below(10), target }
}

pub fn middle(rng: &mut Rng) -> Size {
    let benches = rng.range(2, 20);
    let jobs = rng.below(6 * benches as usize);
    let target = if rng.one_in(8) { MOST_MINUTES } else { rng.range(1, 1000) };
    Size { benches, jobs, target }
}

pub fn full(rng: &mut Rng) -> Size {
    Size { target: rng.range(100, 10_000), ..FULL }
}

fn head(rng: &mut Rng, size: Size) -> Head {
    let (p, q) = share(rng);
    Head { benches: size.benches, p, q, target: size.target }
}

/// Heavy jobs of some shape, some dedicated load, and light jobs until there are enough. Half of
/// the days have bookings, and on half of all days some of the jobs are check-only.
pub fn any(rng: &mut Rng, size: Size) -> Day {
    let shape = (!rng.one_in(6)).then(|| rng.pick(&SHAPES));
    let choice = rng.pick(&CHOICES);
    booked_with(rng, size, shape, choice)
}

/// As `any`, with the heavy jobs' shape and the light jobs' choice given.
pub fn booked_with(rng: &mut Rng, size: Size, shape: Option<Shape>, choice: Choice) -> Day {
    let mut day = with(rng, size, shape, choice);
    day.booked = bookings::for_run(rng, day.head);
    check_only::make(rng, &mut day.jobs);
    day
}

/// As `booked_with`, without bookings and without check-only jobs.
pub fn with(rng: &mut Rng, size: Size, shape: Option<Shape>, choice: Choice) -> Day {
    let head = head(rng, size);
    let mut jobs = Vec::new();
    if let Some(shape) = shape.filter(|_| head.benches > 1) {
        for [one, two] in pairs(rng, shape, head.benches) {
            let minutes = weights::heavy(rng, head);
            jobs.push(Job { minutes, allowed: bench_bit(one) | bench_bit(two) });
        }
    }
    let often = rng.range(2, 8) as usize;
    for bench in 0..head.benches {
        while rng.one_in(often) {
            let minutes = weights::dedicated(rng, head);
            jobs.push(Job { minutes, allowed: bench_bit(bench) });
        }
    }
    jobs.truncate(size.jobs);
    fill(rng, head, &mut jobs, size.jobs, choice);
    finish(rng, head, jobs)
}

/// Light jobs that bring the day to about as much as the benches have, or less, or more.
fn fill(rng: &mut Rng, head: Head, jobs: &mut Vec<Job>, count: usize, choice: Choice) {
    let percent = rng.range(40, 150);
    let taken: u64 = jobs.iter().map(|job| job.minutes).sum();
    let wanted = (head.benches * head.target * percent / 100).saturating_sub(taken);
    let lights = count - jobs.len();
    for _ in 0..lights {
        let minutes = weights::light(rng, head, wanted / lights as u64);
        jobs.push(Job { minutes, allowed: allowed(rng, choice, head.benches) });
    }
}

/// Puts the jobs in some order, and takes benches from those that fault 12 would refuse.
fn finish(rng: &mut Rng, head: Head, mut jobs: Vec<Job>) -> Day {
    if !rng.one_in(3) {
        rng.shuffle(&mut jobs);
    }
    let longest = jobs.iter().map(|job| job.minutes).max().unwrap_or(0);
    for job in &mut jobs {
        if head.q * job.minutes > head.p * longest {
            while job.allowed.count_ones() > 2 {
                job.allowed &= !bench_bit(rng.range(0, 63));
            }
        }
    }
    Day::new(head, jobs)
}

/// A day made from an assignment that keeps every bench within T, so that the answer is a plan.
/// On each bench there is at most one heavy job, and light jobs up to T or a little less; on half
/// of the days some benches have a booking, which may take all of T, and on half of all days some
/// of the jobs are check-only.
pub fn planted(rng: &mut Rng, size: Size) -> Day {
    let head = head(rng, size);
    let mut jobs = Vec::new();
    let slack = rng.range(0, head.target / 8);
    let choice = rng.pick(&CHOICES);
    let each = size.jobs / head.benches as usize;
    let mut booked = bookings::some(rng, head.benches, |rng| match rng.below(6) {
        0 => head.target,
        _ => rng.range(1, head.target.div_ceil(3)),
    });
    for bench in 0..head.benches {
        let mut room = head.target - rng.range(0, slack);
        let booking = &mut booked[bench as usize];
        *booking = room.min(*booking);
        room -= *booking;
        let before = jobs.len();
        if each > 0 && room > weights::most_light(head) && !rng.one_in(3) {
            let minutes = weights::heavy(rng, head).min(room);
            let other = if rng.one_in(8) { bench } else { rng.range(0, head.benches - 1) };
            jobs.push(Job { minutes, allowed: bench_bit(bench) | bench_bit(other) });
            room -= minutes;
        }
        while room > 0 && jobs.len() < before + each {
            let middle = room / (before + each - jobs.len()) as u64;
            let minutes = weights::light(rng, head, middle).min(room);
            let allowed = allowed(rng, choice, head.benches) | bench_bit(bench);
            jobs.push(Job { minutes, allowed });
            room -= minutes;
        }
    }
    let mut day = finish_planted(rng, head, jobs);
    check_only::make(rng, &mut day.jobs);
    Day { booked, ..day }
}

/// As `finish`, but jobs that fault 12 would refuse are left out.
fn finish_planted(rng: &mut Rng, head: Head, mut jobs: Vec<Job>) -> Day {
    let mut before = usize::MAX;
    while jobs.len() < before {
        before = jobs.len();
        let most = head.p * jobs.iter().map(|job| job.minutes).max().unwrap_or(0);
        jobs.retain(|job| job.allowed.count_ones() < 3 || head.q * job.minutes <= most);
    }
    if !rng.one_in(3) {
        rng.shuffle(&mut jobs);
    }
    Day::new(head, jobs)
}
