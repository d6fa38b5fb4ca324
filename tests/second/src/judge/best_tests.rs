//! The judge on hand-made best targets, and those of the second planner before the judge.

use super::best::{judge_against, judge_best, least_largest_load};
use crate::codec::door::Codec;
use crate::codec::sheet::{Head, Job, Sheet};
use crate::gen::bay::{days, tight};
use crate::gen::day::Day;
use crate::planner::algorithm::{Answer, Planner, Rooms};
use crate::planner::best::{start, Best};
use crate::planner::example_tests::{booked, head, job};
use crate::rng::Rng;

fn sheet(day: &Day) -> Sheet {
    Codec::default().read(&day.draft().bytes()).expect("accepted").clone()
}

fn example_8() -> Sheet {
    sheet(&Day::new(head(2, 8), vec![job(2, &[0, 1]); 4]))
}

/// Example 8's best target; tried are 8, 4, 2 and 3.
const BEST: Best = Best {
    target: 4,
    runs: 4,
    largest: 6,
    moves: 1,
    fullest: 0,
    places: &[1, 0, 0, 0],
    loads: &[6, 2],
};

fn judged(best: Best) -> Result<(), &'static str> {
    judge_best(&mut Planner::new(), &example_8(), &best)
}

#[test]
fn wrong_best_targets_are_refused() {
    assert_eq!(judged(BEST), Ok(()));
    for runs in [0, 32, 1 << 40] {
        assert_eq!(judged(Best { runs, ..BEST }), Err("not 1 to 31 targets were run"));
    }
    for runs in [1, 3, 5, 31] {
        assert_eq!(judged(Best { runs, ..BEST }), Err("not the runs from the start to the target"));
    }
    assert_eq!(judged(Best { target: 9, ..BEST }), Err("a target above the start"));
    assert_eq!(judged(Best { target: u64::MAX, ..BEST }), Err("a target above the start"));
    // The loads are within the bound of 5 too, but that target's plan is another: nothing moves.
    let at_5 = Best { target: 5, ..BEST };
    assert_eq!(judged(at_5), Err("not the plan of the target"));
    assert!(judged(Best { target: 3, ..BEST }).is_err());
    let of_5 = Best { largest: 8, moves: 0, places: &[0; 4], loads: &[8, 0], ..at_5 };
    assert_eq!(judged(of_5), Err("the target one below gives a plan"));
}

#[test]
fn plans_of_other_targets_are_refused() {
    // That of the start is above the bound of 4: 21 × 8 > 39 × 4.
    let of_8 = Best { largest: 8, moves: 0, places: &[0; 4], loads: &[8, 0], ..BEST };
    assert_eq!(judged(of_8), Err("a load is above the bound"));
    // Another assignment within the bound, and other numbers of the right one.
    let other = Best { places: &[0, 1, 0, 0], ..BEST };
    assert_eq!(judged(other), Err("not the plan of the target"));
    assert_eq!(judged(Best { moves: 0, ..BEST }), Err("not the plan of the target"));
    assert!(judged(Best { fullest: 1, ..BEST }).is_err());
    assert!(judged(Best { largest: 5, ..BEST }).is_err());
    assert!(judged(Best { loads: &[6, 3], ..BEST }).is_err());
    assert!(judged(Best { places: &[1, 0, 0], ..BEST }).is_err());
}

#[test]
fn target_0_has_none_below() {
    let empty = sheet(&Day::new(head(1, 9), vec![]));
    let best =
        Best { target: 0, runs: 1, largest: 0, moves: 0, fullest: 0, places: &[], loads: &[0] };
    let mut planner = Planner::new();
    assert_eq!(judge_best(&mut planner, &empty, &best), Ok(()));
    assert!(judge_best(&mut planner, &empty, &Best { runs: 2, ..best }).is_err());
    assert!(judge_best(&mut planner, &empty, &Best { target: 1, ..best }).is_err());
}

#[test]
fn the_best_possible_largest_load() {
    let least = |bookings: &[(usize, u64)], jobs: &[Job]| {
        least_largest_load(&sheet(&booked(head(3, 0), bookings, jobs)), 1000)
    };
    assert_eq!(least(&[], &[]), Some(0));
    assert_eq!(least(&[], &[job(0, &[0, 1]); 4]), Some(0));
    assert_eq!(least(&[(0, 3), (2, 7)], &[]), Some(7));
    assert_eq!(least(&[], &[job(5, &[0, 1]); 3]), Some(10));
    assert_eq!(least(&[(1, 3)], &[job(5, &[0, 1]); 3]), Some(10));
    assert_eq!(least(&[(1, 6)], &[job(5, &[0, 1]); 3]), Some(11));
    assert_eq!(least(&[(0, 20)], &[job(5, &[0, 1]); 3]), Some(20));
    assert_eq!(least(&[], &[job(5, &[2]); 3]), Some(15));
    let jobs = [job(7, &[0, 1]), job(5, &[0, 1]), job(4, &[1, 2]), job(4, &[0, 2])];
    assert_eq!(least(&[], &jobs), Some(8));
    assert_eq!(least(&[], &[job(1, &[0, 1]); 100]), None);
}

#[test]
fn the_best_possible_largest_load_is_at_least_the_target() {
    let day = example_8();
    assert_eq!(least_largest_load(&day, 1000), Some(4));
    assert_eq!(judge_against(&day, &BEST, 4), Ok(()));
    let higher = Best { target: 5, ..BEST };
    assert_eq!(
        judge_against(&day, &higher, 4),
        Err("an assignment has all loads below the target")
    );
    // 21 × 7 = 147 is not above 39 × 4 = 156, and 21 × 8 is.
    assert_eq!(judge_against(&day, &Best { largest: 7, ..BEST }, 4), Ok(()));
    let fuller = Best { largest: 8, ..BEST };
    assert_eq!(judge_against(&day, &fuller, 4), Err("the largest load is above the bound"));
}

#[test]
fn best_targets_before_the_judge() {
    let mut rng = Rng::new(8);
    let (mut planner, mut other) = (Planner::new(), Planner::new());
    let mut met = [0; 4];
    for turn in 0..3000 {
        let size = days::tiny(&mut rng);
        let day = match turn % 4 {
            0 => tight::tight(&mut rng, 2),
            _ => days::any(&mut rng, size),
        };
        let sheet = sheet(&day);
        let best = planner.best(&day.draft().bytes(), Rooms::FULL).expect("accepted");
        assert_eq!(judge_best(&mut other, &sheet, &best), Ok(()), "{day:?}");
        let Some(least) = least_largest_load(&sheet, 50_000) else { continue };
        assert_eq!(judge_against(&sheet, &best, least), Ok(()), "{day:?}");
        met[usize::from(best.target < least)] += 1;
        met[2] += usize::from(best.largest > least);
        met[3] += usize::from(best.target == start(&sheet));
    }
    assert!(met.iter().all(|&times| times > 100), "{met:?}");
}

/// "every assignment has a largest load of at least the target": the plan's own included.
#[test]
fn a_target_above_0_is_at_most_its_largest_load() {
    let mut rng = Rng::new(9);
    let mut planner = Planner::new();
    for _ in 0..1000 {
        let size = days::middle(&mut rng);
        let day = days::any(&mut rng, size);
        let Head { p, q, .. } = day.head;
        let best = planner.best(&day.draft().bytes(), Rooms::FULL).expect("accepted");
        assert!(best.target <= best.largest, "{day:?}");
        assert!(3 * q * best.largest <= (5 * q + p) * best.target, "{day:?}");
        assert!(matches!(best.plan(), Answer::Plan { .. }));
    }
}
