//! Jobs of 0 minutes: "They are light always, also at T = 0, where such jobs alone, with no booking
//! above 0, give a plan with largest load 0."

use super::algorithm::{Comparison, Planner, Rooms};
use super::bay::is_heavy;
use super::example_tests::{booked, head, job, plan, plan_day, planned, Owned};
use crate::codec::fault::Fault;
use crate::codec::sheet::{Head, Job};
use crate::gen::day::Day;
use crate::gen::{check_only, lists};
use crate::rng::Rng;

fn none(benches: &[usize], moves: u64) -> Owned {
    Owned::None { benches: benches.to_vec(), moves }
}

#[test]
fn they_are_light_always() {
    for (p, q) in [(4, 7), (2, 3), (126, 127)] {
        for target in [0, 1, 9, (1 << 30) - 1] {
            assert!(!is_heavy(Head { benches: 2, p, q, target }, &job(0, &[0, 1])));
        }
        assert!(is_heavy(Head { benches: 2, p, q, target: 0 }, &job(1, &[0, 1])));
    }
}

#[test]
fn alone_they_are_planned_on_their_lowest_benches() {
    for target in [0, 1, 9] {
        for benches in 1..=64 {
            let last = benches as usize - 1;
            let jobs = [job(0, &[last]), job(0, &[0, last]), job(0, &[0, last / 2, last])];
            let expected = planned(0, 0, 0, &[last as u64, 0, 0], &vec![0; benches as usize]);
            assert_eq!(plan(head(benches, target), &jobs), expected);
        }
    }
    let full = vec![Job { minutes: 0, allowed: u64::MAX }; 512];
    assert_eq!(plan(head(64, 0), &full), planned(0, 0, 0, &[0; 512], &[0; 64]));
}

#[test]
fn at_t_0_a_job_above_0_is_long() {
    let zeros = [job(0, &[0, 1]); 3];
    let with = |job| plan(head(2, 0), &[&zeros[..], &[job], &zeros[..], &[job]].concat());
    assert_eq!(with(job(1, &[0])), Owned::Long(3));
    assert_eq!(with(job(1, &[0, 1])), Owned::Long(3));
    assert_eq!(with(job(0, &[0, 1])), planned(0, 0, 0, &[0; 8], &[0, 0]));
}

#[test]
fn a_booking_above_0_gives_none_at_t_0() {
    let at = |bench, jobs: &[Job]| plan_day(&booked(head(3, 0), &[(bench, 1)], jobs));
    assert_eq!(at(1, &[]), none(&[1], 0));
    assert_eq!(at(1, &[job(0, &[1])]), none(&[1], 0));
    // One that may leave the booked bench does.
    assert_eq!(at(1, &[job(0, &[1, 2]), job(0, &[0, 1])]), none(&[1], 1));
    assert_eq!(at(2, &[job(0, &[1, 2]), job(0, &[0, 1])]), none(&[2], 0));
}

/// Plan or none by the bookings alone; in a plan the loads are the bookings.
#[test]
fn alone_they_leave_the_answer_to_the_bookings() {
    let mut rng = Rng::new(9);
    let mut answers = [0; 2];
    for _ in 0..2000 {
        let (benches, count) = (rng.range(1, 9), rng.below(12));
        let day = check_only::only(&mut rng, benches, count);
        let Head { p, q, target, .. } = day.head;
        let within = |&minutes: &u64| 3 * q * minutes <= (5 * q + p) * target;
        let is_plan = day.booked.iter().all(within);
        answers[usize::from(is_plan)] += 1;
        match plan_day(&day) {
            Owned::Plan { moves, places, loads, .. } => {
                let lowest = |job: &Job| u64::from(job.allowed.leading_zeros());
                let expected: Vec<u64> = day.jobs.iter().map(lowest).collect();
                assert!(is_plan && moves == 0 && places == expected, "{day:?}");
                assert_eq!(loads, day.booked[..benches as usize]);
            }
            Owned::None { .. } => assert!(!is_plan, "{day:?}"),
            other => panic!("{other:?}: {day:?}"),
        }
    }
    assert!(answers.iter().all(|&times| times > 400), "{answers:?}");
}

#[test]
fn push_takes_them_by_job_number() {
    // Example 8 with a check-only job in each place: before job 0 it moves, and job 0 after it.
    for place in 0..5 {
        let mut jobs = vec![job(2, &[0, 1]); 4];
        jobs.insert(place, job(0, &[0, 1]));
        let moves = if place == 0 { 2 } else { 1 };
        let mut places = [0; 5];
        places[..moves].fill(1);
        assert_eq!(plan(head(2, 4), &jobs), planned(6, moves as u64, 0, &places, &[6, 2]));
    }
}

#[test]
fn they_count_in_the_most_moves() {
    // Example 8 with check-only jobs in front: each of them moves once, then job 0 of the example.
    for count in [1, 3, 40, 508] {
        let jobs = [vec![job(0, &[0, 1]); count], vec![job(2, &[0, 1]); 4]].concat();
        let places = [vec![1; count + 1], vec![0; 3]].concat();
        let expected = planned(6, count as u64 + 1, 0, &places, &[6, 2]);
        assert_eq!(plan(head(2, 4), &jobs), expected);
        let mut planner = Planner::new();
        let sheet = Day::new(head(2, 4), jobs).draft().bytes();
        planner.plan(&sheet, Rooms::FULL).expect("accepted");
        assert_eq!(planner.counts().budget, 2 * (count as u64 + 4));
    }
}

/// "Two plans with equal loads were filed as one although a 0-minute check had moved."
#[test]
fn plans_that_differ_in_them_alone_are_different() {
    let jobs = [job(0, &[0, 1]), job(5, &[0, 1]), job(0, &[1])];
    for day in [Day::new(head(2, 9), jobs.to_vec()), booked(head(2, 9), &[(1, 4)], &jobs)] {
        let sheet = day.draft().bytes();
        let compare = |first: &[u64], second: &[u64]| Planner::new().compare(&sheet, first, second);
        assert_eq!(compare(&[0, 0, 1], &[0, 0, 1]), Ok(Comparison::Same));
        assert_eq!(compare(&[0, 0, 1], &[1, 0, 1]), Ok(Comparison::Different));
        assert_eq!(compare(&[0, 0, 1], &[0, 1, 1]), Ok(Comparison::Different));
        // A bench that they do not allow, one that the head lacks, and no place for one.
        for bad in [&[0, 0, 0][..], &[2, 0, 1], &[0, 0]] {
            assert_eq!(compare(bad, &[0, 0, 1]), Err(Fault::new(13, 0)));
            assert_eq!(compare(&[0, 0, 1], bad), Err(Fault::new(13, 1)));
        }
    }
}

#[test]
fn alone_they_make_as_many_plans_as_there_are_lists() {
    let day = Day::new(head(2, 0), vec![job(0, &[0, 1]); 3]);
    let (mut planner, sheet) = (Planner::new(), day.draft().bytes());
    for first in lists::all(3, 1) {
        for second in lists::all(3, 1) {
            let same = planner.compare(&sheet, &first, &second) == Ok(Comparison::Same);
            assert_eq!(same, first == second, "{first:?} and {second:?}");
        }
    }
}
