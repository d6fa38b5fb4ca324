//! Random sheets with check-only jobs, those of 0 minutes, and an answer that is known from the
//! sheet, one round.

use crate::check::{Check, Rival};
use crate::classes::tiny_day;
use crate::planned::Planned;
use second::codec::sheet::{Head, Job};
use second::gen::bay::days;
use second::gen::check_only;
use second::gen::day::{bench_bit, Day};
use second::planner::algorithm::Answer;

pub fn round(check: &mut Check) {
    only(check);
    only_full(check);
    no_minutes_to_give(check);
    on_one_bench(check);
}

/// Check-only jobs alone: a plan if and only if no booking is above the bound, and then each job is
/// on its lowest bench and the loads are the bookings.
pub fn expect_by_bookings(check: &mut Check, day: &Day, rival: Rival) -> Planned {
    let Head { benches, p, q, target } = day.head;
    let within = |&minutes: &u64| 3 * q * minutes <= (5 * q + p) * target;
    let is_plan = day.booked.iter().all(within);
    let sheet = day.draft().bytes();
    let planned = check.plan(&sheet, rival);
    let holds = match planned.answer() {
        Ok(Answer::Plan { largest, moves, places, loads, .. }) => {
            let lowest = day.jobs.iter().map(|job| u64::from(job.allowed.leading_zeros()));
            let booked = &day.booked[..benches as usize];
            is_plan
                && moves == 0
                && places.iter().copied().eq(lowest)
                && loads == booked
                && booked.iter().max() == Some(&largest)
        }
        Ok(Answer::None { .. }) => !is_plan,
        _ => false,
    };
    check.expect("check-only jobs leave the answer to the bookings", holds, &sheet);
    planned
}

fn only(check: &mut Check) {
    check.class("check-only jobs alone, judged by search");
    for _ in 0..100 {
        let (benches, count) = (check.rng.range(1, 6), check.rng.range(1, 9));
        let day = check_only::only(&mut check.rng, benches, count as usize);
        expect_by_bookings(check, &day, Rival::Searched);
    }
}

fn only_full(check: &mut Check) {
    check.class("full, check-only jobs alone");
    for _ in 0..8 {
        let day = check_only::only(&mut check.rng, 64, 512);
        expect_by_bookings(check, &day, Rival::Unknown);
    }
}

/// At T = 0 the lowest job above 0 is long; without one the bookings decide.
fn no_minutes_to_give(check: &mut Check) {
    check.class("T = 0");
    for turn in 0..60 {
        let mut day = tiny_day(check);
        if turn % 2 == 0 {
            let size = days::middle(&mut check.rng);
            day = days::any(&mut check.rng, size);
        }
        day.head.target = 0;
        let Some(long) = day.jobs.iter().position(|job| job.minutes > 0) else {
            expect_by_bookings(check, &day, Rival::Unknown);
            continue;
        };
        let sheet = day.draft().bytes();
        let planned = check.plan(&sheet, Rival::Unknown);
        let holds = planned.answer() == Ok(Answer::Long { job: long });
        check.expect("long at T = 0", holds, &sheet);
    }
}

/// Check-only jobs with one bench, behind the others, change nothing but that they have places.
fn on_one_bench(check: &mut Check) {
    check.class("more check-only jobs with one bench");
    for _ in 0..60 {
        let mut day = tiny_day(check);
        let before = check.plan_day(&day, Rival::Unknown);
        let benches: Vec<u64> =
            (0..check.rng.range(1, 4)).map(|_| check.rng.range(0, day.head.benches - 1)).collect();
        day.jobs.extend(benches.iter().map(|&bench| Job { minutes: 0, allowed: bench_bit(bench) }));
        let sheet = day.draft().bytes();
        let after = check.plan(&sheet, Rival::Unknown);
        let more = [&before.places[..], &benches].concat();
        let holds = match (before.answer(), after.answer()) {
            (
                Ok(Answer::Plan { largest, moves, fullest, loads, .. }),
                Ok(answer @ Answer::Plan { .. }),
            ) => answer == Answer::Plan { largest, moves, fullest, places: &more, loads },
            (before, after) => before == after,
        };
        check.expect("a check-only job with one bench has its place", holds, &sheet);
    }
}
