//! Each generator does what it is for, in the second planner's eyes.

use super::alike::alike;
use super::days::{self, Size};
use super::heavy::{pairs, Shape, SHAPES};
use super::{families, placements, tied, tight, turning};
use crate::codec::fault::{SET, SHARED};
use crate::planner::algorithm::{Answer, Planner, Rooms};
use crate::planner::checker::PageCheck;
use crate::planner::set::Set;
use crate::rng::Rng;

#[test]
fn days_are_accepted() {
    let mut rng = Rng::new(1);
    let mut planner = Planner::new();
    for turn in 0..3000 {
        let size = match turn % 100 {
            0 => days::full(&mut rng),
            turn if turn % 2 == 0 => days::middle(&mut rng),
            _ => days::tiny(&mut rng),
        };
        let day = days::any(&mut rng, size);
        planner.plan(&day.draft().bytes(), Rooms::FULL).expect("an accepted day");
    }
}

/// Where the head has two benches, every job has, and most days have two jobs that are the same.
#[test]
fn days_with_jobs_that_are_alike() {
    let mut rng = Rng::new(8);
    let mut planner = Planner::new();
    let mut with_equal = 0;
    for _ in 0..1000 {
        let size = Size { jobs: 20, ..days::middle(&mut rng) };
        let day = alike(&mut rng, size);
        planner.plan(&day.draft().bytes(), Rooms::FULL).expect("an accepted day");
        assert!(day.jobs.iter().all(|job| job.allowed.count_ones() > 1), "{day:?}");
        let has_copy = |job: usize| day.jobs[..job].contains(&day.jobs[job]);
        with_equal += usize::from((0..day.jobs.len()).any(has_copy));
    }
    assert!(with_equal > 900, "{with_equal}");
}

#[test]
fn half_of_the_days_have_check_only_jobs() {
    let mut rng = Rng::new(7);
    let mut some = [0; 4];
    for _ in 0..1000 {
        let size = Size { jobs: 30, ..days::middle(&mut rng) };
        let days = [
            days::any(&mut rng, size),
            days::planted(&mut rng, Size { target: 100, ..size }),
            tight::tight(&mut rng, 5),
            tied::tied(&mut rng, 5),
        ];
        for (some, day) in some.iter_mut().zip(days) {
            *some += usize::from(day.jobs.iter().any(|job| job.minutes == 0));
        }
    }
    assert!(some.iter().all(|some| (400..600).contains(some)), "{some:?}");
}

#[test]
fn tight_days_are_accepted() {
    let mut rng = Rng::new(5);
    let mut planner = Planner::new();
    for turn in 0..2000 {
        let day = tight::tight(&mut rng, 2 + turn % 6);
        planner.plan(&day.draft().bytes(), Rooms::FULL).expect("an accepted day");
    }
}

#[test]
fn tied_days_have_plans_with_benches_as_full_as_the_fullest() {
    let mut rng = Rng::new(6);
    let mut planner = Planner::new();
    let mut ties = 0;
    for turn in 0..2000 {
        let bytes = tied::tied(&mut rng, 1 + turn % 64).draft().bytes();
        let answer = planner.plan(&bytes, Rooms::FULL);
        let Ok(Answer::Plan { largest, moves: 0, loads, .. }) = answer else {
            panic!("no plan at once: {answer:?}")
        };
        ties += usize::from(loads.iter().filter(|&&load| load == largest).count() > 1);
    }
    assert!(ties > 1000 && ties < 1950, "{ties}");
}

#[test]
fn planted_days_have_a_plan() {
    let mut rng = Rng::new(2);
    let mut planner = Planner::new();
    for turn in 0..2000 {
        let size = if turn % 50 == 0 { days::full(&mut rng) } else { days::middle(&mut rng) };
        let bytes = days::planted(&mut rng, size).draft().bytes();
        let answer = planner.plan(&bytes, Rooms::FULL);
        assert!(matches!(answer, Ok(Answer::Plan { .. })), "{answer:?}");
    }
}

#[test]
fn shapes_join_two_different_benches() {
    let mut rng = Rng::new(3);
    for shape in SHAPES {
        for benches in 2..65 {
            let pairs = pairs(&mut rng, shape, benches);
            assert!(pairs.iter().all(|[one, two]| one != two && one.max(two) < &benches));
            assert!(pairs.len() <= benches as usize || shape == Shape::Crowded);
        }
    }
}

#[test]
fn the_turning_target_has_a_plan() {
    let mut rng = Rng::new(4);
    let mut planner = Planner::new();
    for _ in 0..300 {
        let size = days::middle(&mut rng);
        let mut day = days::any(&mut rng, size);
        day.head.target = turning::turning_target(&mut planner, &day);
        let answer = planner.plan(&day.draft().bytes(), Rooms::FULL);
        assert!(matches!(answer, Ok(Answer::Plan { .. })), "{answer:?}");
    }
}

#[test]
fn families_are_disjoint_sets_of_the_head() {
    let mut rng = Rng::new(8);
    let mut met = [0; 65];
    for turn in 0..6000 {
        let benches = 1 + turn % 64;
        let sets = families::disjoint(&mut rng, benches);
        let union = families::union(&sets);
        assert!(sets.iter().all(|set| !set.is_empty()));
        assert_eq!(sets.iter().map(|set| set.len()).sum::<usize>(), union.len());
        assert!((union - Set::first(benches as usize)).is_empty());
        met[sets.len()] += 1;
    }
    assert!([1, 2, 3, 10, 40].into_iter().all(|count| met[count] >= 10), "{met:?}");
}

/// Pages of levelled families pass, or do not, each often enough; spoilt ones meet both faults.
#[test]
fn pages_of_families_meet_each_answer_and_each_fault() {
    let (mut rng, mut planner) = (Rng::new(9), Planner::new());
    let (mut passed, mut named, mut faults) = (0, [0; 6], [0; 2]);
    for _ in 0..3000 {
        let size = placements::small(&mut rng);
        let mut day = placements::any(&mut rng, size);
        let mut sets = families::disjoint(&mut rng, day.head.benches);
        families::level(&mut rng, &mut day, &sets);
        let sheet = day.draft().bytes();
        match planner.check_page(&sheet, sets.iter().copied(), true).expect("no fault") {
            PageCheck::Passed => passed += usize::from(sets.len() > 1),
            PageCheck::NotPassed { set } => named[set] += 1,
            PageCheck::Long { .. } => unreachable!("no job is long"),
        }
        families::spoil(&mut rng, &mut sets, day.head.benches);
        match planner.check_page(&sheet, sets.iter().copied(), true).map_err(|fault| fault.number) {
            Err(SET) => faults[0] += 1,
            Err(SHARED) => faults[1] += 1,
            _ => {}
        }
    }
    assert!(passed >= 300 && named[..2].iter().all(|&times| times >= 100), "{passed} {named:?}");
    assert!(faults.iter().all(|&times| times >= 500), "{faults:?}");
}
