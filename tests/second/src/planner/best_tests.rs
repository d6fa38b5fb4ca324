//! The search for the best target. tests/plans/best.txt has hand-worked days.

use super::algorithm::{Answer, Planner, Rooms};
use super::best::{search, start, Best, Found, MOST_RUNS};
use super::example_tests::{booked, head, job, plan_day, planned, Owned};
use crate::codec::door::Codec;
use crate::codec::fault::Fault;
use crate::codec::sheet::{Job, Sheet};
use crate::corpus;
use crate::gen::bay::{days, tight};
use crate::gen::damage::{damage, DAMAGES};
use crate::gen::day::{bench_bit, Day, MOST_MINUTES, MOST_TARGET};
use crate::rng::Rng;

/// The target, the number of targets run, and the plan of the target.
fn best(day: &Day) -> (u64, u64, Owned) {
    let mut planner = Planner::new();
    let Best { target, runs, largest, moves, fullest, places, loads } =
        planner.best(&day.draft().bytes(), Rooms::FULL).expect("accepted");
    (target, runs, planned(largest, moves, fullest, places, loads))
}

fn with_target(day: &Day, target: u64) -> Day {
    let mut day = day.clone();
    day.head.target = target;
    day
}

/// The targets in the order of their runs, and what the search has found, where `is_plan` tells
/// which of them give a plan.
fn tried(start: u64, is_plan: impl Fn(u64) -> bool) -> (Vec<u64>, Found<u64>) {
    let mut tried = Vec::new();
    let found = search(start, |target| {
        tried.push(target);
        is_plan(target).then_some(target)
    });
    (tried, found)
}

#[test]
fn the_start_is_run_first_and_counted() {
    assert_eq!(tried(0, |_| true), (vec![0], Found { target: 0, plan: 0, runs: 1 }));
    assert_eq!(tried(1, |_| true), (vec![1, 0], Found { target: 0, plan: 0, runs: 2 }));
    assert_eq!(tried(1, |t| t > 0), (vec![1, 0], Found { target: 1, plan: 1, runs: 2 }));
    let found = Found { target: 3, plan: 3, runs: 4 };
    assert_eq!(tried(5, |t| t > 2), (vec![5, 2, 4, 3], found));
}

/// With refusal monotone the answer is the lowest target with a plan. Each run halves what is left.
#[test]
fn each_turning_point_is_found() {
    for start in 0..=130 {
        for lowest in 0..=start {
            let (tried, found) = tried(start, |target| target >= lowest);
            assert_eq!((found.target, found.plan), (lowest, lowest));
            assert_eq!((tried[0], tried.len() as u64), (start, found.runs));
            let most = 1 + u64::from(u64::BITS - start.leading_zeros());
            assert!(found.runs <= most && found.runs > u64::from((start + 1).ilog2()));
        }
    }
}

/// Whatever is refused: no target is run twice, the answer's plan is that of its own run, and the
/// one below was run and refused.
#[test]
fn whatever_is_refused_the_target_one_below_was_run() {
    let mut rng = Rng::new(3);
    for _ in 0..3000 {
        let start = rng.range(0, 200);
        let refused: Vec<bool> = (0..start).map(|_| rng.one_in(2)).chain([false]).collect();
        let (mut tried, found) = tried(start, |target| !refused[target as usize]);
        assert!(!refused[found.target as usize] && found.plan == found.target);
        let below = found.target.checked_sub(1);
        assert!(below.is_none_or(|below| refused[below as usize] && tried.contains(&below)));
        assert_eq!(tried.len() as u64, found.runs);
        tried.sort_unstable();
        tried.dedup();
        assert_eq!(tried.len() as u64, found.runs);
    }
}

#[test]
fn at_most_31_targets_are_run_and_all_fit_a_sheet() {
    let highest = 513 * MOST_MINUTES;
    assert!(highest <= MOST_TARGET);
    let mut rng = Rng::new(4);
    let mut most = 0;
    for turn in 0..20_000 {
        let lowest = rng.range(0, highest >> (turn % 30));
        most = tried(highest, |target| target >= lowest).1.runs.max(most);
    }
    assert_eq!(most, MOST_RUNS);
}

/// 512 jobs of the most minutes on one bench, and as many booked on another: the search starts as
/// high as it can. 21 × 512 × 1,048,575 is above 39 × 289,084,061 and not above 39 × 289,084,062;
/// at the share 20/31 the bound is 175 × T / 93.
#[test]
fn the_highest_start() {
    let longest = Job { minutes: MOST_MINUTES, allowed: bench_bit(0) };
    let mut day = booked(head(2, 0), &[(1, MOST_MINUTES)], &vec![longest; 512]);
    let load = 512 * MOST_MINUTES;
    let plan = || planned(load, 0, 0, &[0; 512], &[load, MOST_MINUTES]);
    assert_eq!(best(&day), (289_084_062, 30, plan()));
    (day.head.p, day.head.q) = (20, 31);
    assert_eq!(best(&day), (285_308_270, 31, plan()));
}

/// The start: all minutes of jobs, and of the bookings the largest alone.
#[test]
fn the_start_counts_jobs_and_the_largest_booking() {
    let mut codec = Codec::default();
    let mut start_of = |bookings: &[(usize, u64)], jobs: &[Job]| {
        let day = booked(head(3, 1), bookings, jobs);
        start(codec.read(&day.draft().bytes()).expect("accepted"))
    };
    assert_eq!(start_of(&[], &[]), 0);
    assert_eq!(start_of(&[], &[job(0, &[0]), job(0, &[1, 2])]), 0);
    assert_eq!(start_of(&[], &[job(3, &[0]), job(4, &[1, 2])]), 7);
    assert_eq!(start_of(&[(0, 5), (1, 9), (2, 8)], &[]), 9);
    assert_eq!(start_of(&[(0, 5), (2, 9)], &[job(3, &[0]), job(4, &[1, 2])]), 16);
}

/// The search as the request has it, once more: on sheets that are written with each target, and
/// with what is known of the targets in a list.
fn by_writing(day: &Day) -> (u64, u64, Owned) {
    let minutes: u64 = day.jobs.iter().map(|job| job.minutes).sum();
    let start = minutes + day.booked.iter().max().expect("64 benches");
    let mut known = vec![(start, plan_day(&with_target(day, start)))];
    loop {
        let is_plan = |answer: &Owned| matches!(answer, Owned::Plan { .. });
        let plans = known.iter().filter(|(_, answer)| is_plan(answer));
        let high = plans.map(|&(target, _)| target).min().expect("a plan at the start");
        let refused = known.iter().filter(|(_, answer)| !is_plan(answer));
        let low = refused.map(|&(target, _)| target + 1).max().unwrap_or(0);
        if low >= high {
            let runs = known.len() as u64;
            let plan = known.into_iter().find(|&(target, _)| target == high).expect("it was run");
            return (high, runs, plan.1);
        }
        let middle = low + (high - low) / 2;
        known.push((middle, plan_day(&with_target(day, middle))));
    }
}

fn random_day(rng: &mut Rng, turn: usize) -> Day {
    let size = if turn % 8 == 0 { days::middle(rng) } else { days::tiny(rng) };
    match turn % 4 {
        1 => tight::tight(rng, 2 + turn as u64 % 3),
        _ => days::any(rng, size),
    }
}

#[test]
fn days_have_the_best_targets_of_sheets_that_are_written() {
    let mut rng = Rng::new(5);
    for turn in 0..1200 {
        let day = random_day(&mut rng, turn);
        assert_eq!(best(&day), by_writing(&day), "{day:?}");
    }
}

#[test]
fn the_target_of_the_sheet_is_not_looked_at() {
    let mut rng = Rng::new(6);
    for turn in 0..400 {
        let day = random_day(&mut rng, turn);
        let found = best(&day);
        for other in [0, 1, found.0.saturating_sub(1), found.0 + 1, MOST_TARGET] {
            assert_eq!(best(&with_target(&day, other)), found, "{day:?}");
        }
    }
}

/// Which of the targets up to the start give a plan.
fn profile(planner: &mut Planner, sheet: &Sheet) -> Vec<bool> {
    let plans = |target| matches!(planner.plan_at(sheet, target), Answer::Plan { .. });
    (0..=start(sheet)).map(plans).collect()
}

/// Searches that try other targets: from below, from above, and from the longest job on. On the
/// last day of the text each gives another target than the request's search.
#[test]
fn refusal_is_not_monotone() {
    let (mut planner, mut codec) = (Planner::new(), Codec::default());
    let case = corpus::cases(corpus::BEST_TEXT).pop().expect("it has days");
    let bytes = case.day.draft().bytes();
    let sheet = codec.read(&bytes).expect("accepted");
    let plans = profile(&mut planner, sheet);
    let from_below = plans.iter().position(|&plan| plan).expect("a plan at the start");
    let from_above = plans.iter().rposition(|&plan| !plan).expect("one is refused") + 1;
    let longest = sheet.jobs().iter().map(|job| job.minutes).max().expect("it has jobs") as usize;
    let (mut low, mut high) = (longest, plans.len() - 1);
    while low < high {
        let middle = (low + high) / 2;
        (low, high) = if plans[middle] { (low, middle) } else { (middle + 1, high) };
    }
    assert_eq!([from_below, from_above, high], [32, 37, 32]);
    assert_eq!(best(&case.day).0, 34);
}

#[test]
fn faults_are_those_of_planning() {
    let mut rng = Rng::new(7);
    let mut planner = Planner::new();
    for number in DAMAGES {
        for _ in 0..20 {
            let mut draft = Day::random(&mut rng, 5).draft();
            damage(&mut rng, &mut draft, number);
            let bytes = draft.bytes();
            let fault = planner.plan(&bytes, Rooms::FULL).expect_err("damaged");
            assert_eq!(planner.best(&bytes, Rooms::FULL), Err(fault));
            assert_eq!(planner.best(&bytes, Rooms { places: 0, loads: 0 }), Err(fault));
        }
    }
    let bytes = Day::new(head(2, 4), vec![job(5, &[0]); 3]).draft().bytes();
    for (places, loads) in [(2, 2), (3, 1), (0, 0)] {
        let found = planner.best(&bytes, Rooms { places, loads });
        assert_eq!(found, Err(Fault::new(13, 0)));
    }
    assert!(planner.best(&bytes, Rooms { places: 3, loads: 2 }).is_ok());
}
