//! Fixed sheets with check-only jobs, those of 0 minutes.

use crate::check::{Check, Rival};
use crate::check_only::expect_by_bookings;
use second::codec::sheet::{Head, Job};
use second::gen::day::{bench_bit, Day};
use second::planner::algorithm::Answer;
use second::planner::set::Set;

pub fn all(check: &mut Check) {
    alone(check);
    full(check);
    booked(check);
    long(check);
    among_rocks(check);
    moved(check);
}

fn head(benches: u64, target: u64) -> Head {
    Head { benches, p: 4, q: 7, target }
}

fn job(minutes: u64, benches: &[u64]) -> Job {
    Job { minutes, allowed: benches.iter().map(|&bench| bench_bit(bench)).sum() }
}

fn expect(check: &mut Check, what: &str, day: &Day, answer: Answer) {
    let sheet = day.draft().bytes();
    let planned = check.plan(&sheet, Rival::Unknown);
    check.expect(what, planned.answer() == Ok(answer), &sheet);
}

/// A check-only job with one bench and one with all of them, at T = 0 and above.
fn alone(check: &mut Check) {
    check.class("fixed: check-only jobs alone");
    for target in [0, 1, 9] {
        for benches in 1..=64 {
            let last = benches - 1;
            for bench in [0, last / 2, last] {
                let jobs = vec![job(0, &[bench]), Job { minutes: 0, allowed: !0 << (63 - last) }];
                let day = Day::new(head(benches, target), jobs);
                expect_by_bookings(check, &day, Rival::Planted);
            }
        }
    }
}

fn full(check: &mut Check) {
    check.class("fixed: 512 check-only jobs on 64 benches");
    for target in [0, 1, (1 << 30) - 1] {
        for allowed in [u64::MAX, 1, 3, 7, 1 << 63, 3 << 62] {
            let day = Day::new(head(64, target), vec![Job { minutes: 0, allowed }; 512]);
            let places = vec![u64::from(allowed.leading_zeros()); 512];
            let answer =
                Answer::Plan { largest: 0, moves: 0, fullest: 0, places: &places, loads: &[0; 64] };
            expect(check, "each on its lowest bench", &day, answer);
        }
    }
}

/// A booking on each bench, at T = 0 and at the bound: 13 of 7 is taken, 14 is not.
fn booked(check: &mut Check) {
    check.class("fixed: check-only jobs and a booking");
    for (target, minutes) in [(0, 1), (0, (1 << 20) - 1), (7, 13), (7, 14)] {
        for bench in 0..64 {
            let jobs = (0..64).map(|other| job(0, &[other]));
            let mut day = Day::new(head(64, target), jobs.collect());
            day.booked[bench] = minutes;
            let planned = expect_by_bookings(check, &day, Rival::Unknown);
            let none = Answer::None { benches: Set::one(bench), moves: 0 };
            let is_none = planned.answer() == Ok(none);
            let sheet = day.draft().bytes();
            check.expect("the booked bench blocks", is_none == (minutes != 13), &sheet);
            // One more that may go to bench 63 leaves the booked bench, and the set stays.
            day.jobs.push(Job { minutes: 0, allowed: bench_bit(bench as u64) | 1 });
            if minutes != 13 && bench < 63 {
                let none = Answer::None { benches: Set::one(bench), moves: 1 };
                expect(check, "it leaves the booked bench", &day, none);
            }
        }
    }
}

/// A job above 0 in each place among check-only jobs, at T = 0.
fn long(check: &mut Check) {
    check.class("fixed: long at T = 0");
    for count in [1, 2, 9, 512] {
        for long in (0..count).step_by(if count == 512 { 73 } else { 1 }) {
            for minutes in [1, (1 << 20) - 1] {
                let mut jobs = vec![job(0, &[0, 1]); count];
                jobs[long].minutes = minutes;
                jobs[count - 1].minutes = jobs[count - 1].minutes.max(1);
                expect(check, "long", &Day::new(head(2, 0), jobs), Answer::Long { job: long });
            }
        }
    }
}

/// Example 6, whose two jobs make a cycle of two, with check-only jobs on the same benches in each
/// place. As rocks they would make a crowded component.
fn among_rocks(check: &mut Check) {
    check.class("fixed: check-only jobs among rocks");
    for place in 0..3 {
        for count in [1, 2, 3, 100] {
            let mut jobs = vec![job(5, &[0, 1]); 2];
            jobs.splice(place..place, vec![job(0, &[0, 1]); count]);
            let mut rocks = [1, 0].into_iter();
            let place = |job: &Job| if job.minutes == 0 { 0 } else { rocks.next().unwrap_or(0) };
            let places: Vec<u64> = jobs.iter().map(place).collect();
            let plan =
                Answer::Plan { largest: 5, moves: 0, fullest: 0, places: &places, loads: &[5, 5] };
            expect(check, "no rocks", &Day::new(head(2, 5), jobs), plan);
        }
    }
}

/// Example 8 with check-only jobs in front, each of which moves before job 0 of the example.
fn moved(check: &mut Check) {
    check.class("fixed: check-only jobs that move");
    for count in [1, 2, 3, 9, 100, 508] {
        let jobs = [vec![job(0, &[0, 1]); count], vec![job(2, &[0, 1]); 4]].concat();
        let places = [vec![1; count + 1], vec![0; 3]].concat();
        let plan = Answer::Plan {
            largest: 6,
            moves: count as u64 + 1,
            fullest: 0,
            places: &places,
            loads: &[6, 2],
        };
        expect(check, "each moves once", &Day::new(head(2, 4), jobs), plan);
    }
}
