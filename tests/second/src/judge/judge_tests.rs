//! The judge on hand-made answers, and the second planner before the judge.

use super::{has_rival, is_blocking, judge};
use crate::codec::door::Codec;
use crate::codec::sheet::{Head, Job};
use crate::gen::bay::days;
use crate::gen::day::Day;
use crate::gen::draft::Draft;
use crate::planner::algorithm::{Answer, Planner, Rooms};
use crate::planner::example_tests::{booked, head, job};
use crate::planner::set::Set;
use crate::rng::Rng;

fn blocks(head: Head, jobs: &[Job], benches: &[usize]) -> bool {
    day_blocks(&Day::new(head, jobs.to_vec()), benches)
}

fn day_blocks(day: &Day, benches: &[usize]) -> bool {
    let set = benches.iter().fold(Set::EMPTY, |all, &bench| all | Set::one(bench));
    let mut codec = Codec::default();
    is_blocking(codec.read(&day.draft().bytes()).expect("accepted"), set)
}

#[test]
fn blocking_sets() {
    // Five light jobs of 4 on both benches weigh 20 > 2 × 8; with one more bench they do not lie
    // inside the two.
    assert!(blocks(head(3, 8), &[job(4, &[0, 1]); 5], &[0, 1]));
    assert!(!blocks(head(3, 8), &[job(4, &[0, 1]); 4], &[0, 1]));
    assert!(!blocks(head(3, 8), &[job(4, &[0, 1]); 5], &[0, 1, 2]));
    assert!(!blocks(head(3, 8), &[job(4, &[0, 1]); 5], &[0]));
    // A heavy job that may lie outside does not count.
    assert!(!blocks(head(2, 8), &[job(8, &[0, 1]), job(4, &[0])], &[0]));
    // Two heavy jobs on one bench: no placement, so every set blocks but the empty one.
    assert!(blocks(head(2, 8), &[job(8, &[0]); 2], &[1]));
    assert!(!blocks(head(2, 8), &[job(8, &[0]); 2], &[]));
    // A heavy job with one bench drives the other away: 8 + 1 > 8 on bench 1.
    let jobs = [job(8, &[0]), job(8, &[0, 1]), job(1, &[1])];
    assert!(blocks(head(2, 8), &jobs, &[1]));
}

#[test]
fn booked_minutes_count_in_a_blocking_set_that_holds_the_bench() {
    let day = |minutes| booked(head(3, 8), &[(1, minutes)], &[job(4, &[0, 1]); 3]);
    // 12 of jobs and the booking, against 2 × 8.
    assert!(day_blocks(&day(5), &[0, 1]));
    assert!(!day_blocks(&day(4), &[0, 1]));
    assert!(!day_blocks(&day(8), &[1]));
    assert!(day_blocks(&day(9), &[1]));
    assert!(!day_blocks(&day(100), &[0]));
    assert!(!day_blocks(&day(100), &[0, 2]));
    // A booking is never heavy: with the job of 8 it leaves a placement.
    let beside = booked(head(2, 8), &[(0, 8)], &[job(8, &[0])]);
    assert!(!day_blocks(&beside, &[1]));
    assert!(day_blocks(&beside, &[0]));
}

#[test]
fn the_rival_is_bound_by_the_bookings() {
    let mut codec = Codec::default();
    let mut rival = |minutes, jobs: &[Job]| {
        let bytes = booked(head(2, 10), &[(1, minutes)], jobs).draft().bytes();
        has_rival(codec.read(&bytes).expect("accepted"), 1000)
    };
    assert_eq!(rival(5, &[job(5, &[0, 1]); 3]), Some(true));
    assert_eq!(rival(6, &[job(5, &[0, 1]); 3]), Some(false));
    assert_eq!(rival(10, &[]), Some(true));
    assert_eq!(rival(11, &[]), Some(false));
}

#[test]
fn loads_without_their_booking_are_refused() {
    let mut codec = Codec::default();
    let bytes = booked(head(2, 5), &[(1, 4)], &[job(5, &[0, 1])]).draft().bytes();
    let sheet = codec.read(&bytes).expect("accepted");
    let plan = |largest, fullest, places, loads| {
        judge(sheet, &Answer::Plan { largest, moves: 0, fullest, places, loads })
    };
    assert_eq!(plan(5, 0, &[0], &[5, 4]), Ok(()));
    assert_eq!(plan(9, 1, &[1], &[0, 9]), Ok(()));
    assert!(plan(5, 0, &[0], &[5, 0]).is_err());
    assert!(plan(5, 1, &[1], &[0, 5]).is_err());
    let bytes = booked(head(2, 5), &[(1, 5)], &[job(5, &[0, 1])]).draft().bytes();
    let sheet = codec.read(&bytes).expect("accepted");
    let above = Answer::Plan { largest: 10, moves: 0, fullest: 1, places: &[1], loads: &[0, 10] };
    assert!(judge(sheet, &above).is_err());
}

#[test]
fn rivals() {
    let mut codec = Codec::default();
    let mut rival = |target, jobs: &[Job]| {
        let bytes = Draft::new(head(2, target), jobs).bytes();
        has_rival(codec.read(&bytes).expect("accepted"), 1000)
    };
    assert_eq!(rival(10, &[job(5, &[0, 1]); 4]), Some(true));
    assert_eq!(rival(9, &[job(5, &[0, 1]); 4]), Some(false));
    assert_eq!(rival(1000, &[job(1, &[0, 1]); 500]), Some(true));
    assert_eq!(rival(1, &[job(1, &[0, 1]); 300]), Some(false));
    assert_eq!(rival(200, &[job(1, &[0, 1]); 500]), None);
}

#[test]
fn wrong_answers_are_refused() {
    let mut codec = Codec::default();
    let bytes = Draft::new(head(2, 5), &[job(5, &[0, 1]); 2]).bytes();
    let sheet = codec.read(&bytes).expect("accepted");
    let plan = |largest, places, loads| {
        judge(sheet, &Answer::Plan { largest, moves: 0, fullest: 0, places, loads })
    };
    assert_eq!(plan(5, &[1, 0], &[5, 5]), Ok(()));
    assert!(plan(6, &[1, 0], &[5, 5]).is_err());
    assert!(plan(10, &[0, 0], &[10, 0]).is_err());
    assert!(plan(5, &[1, 2], &[5, 5]).is_err());
    assert!(plan(5, &[1, 0], &[5, 4]).is_err());
    assert!(judge(sheet, &Answer::Long { job: 0 }).is_err());
    assert!(judge(sheet, &Answer::None { benches: Set::first(2), moves: 0 }).is_err());
}

#[test]
fn another_fullest_bench_is_refused() {
    let mut codec = Codec::default();
    // Bench 0 has two jobs and 4 minutes, bench 2 a booking alone, as full as bench 1.
    let jobs = [job(2, &[0]), job(2, &[0]), job(5, &[1]), job(1, &[3])];
    let bytes = booked(head(4, 5), &[(2, 5)], &jobs).draft().bytes();
    let sheet = codec.read(&bytes).expect("accepted");
    let plan = |fullest| {
        let (places, loads) = (&[0, 0, 1, 3], &[4, 5, 5, 1]);
        judge(sheet, &Answer::Plan { largest: 5, moves: 0, fullest, places, loads })
    };
    assert_eq!(plan(1), Ok(()));
    assert_eq!(plan(2), Err("a lower bench is as full as the fullest"));
    for less in [0, 3] {
        assert_eq!(plan(less), Err("the fullest bench has less than the largest load"));
    }
    for past in [4, 63, 64, usize::MAX] {
        assert_eq!(plan(past), Err("the head lacks the fullest bench"));
    }
}

#[test]
fn with_nothing_to_do_bench_0_is_the_fullest() {
    let mut codec = Codec::default();
    let bytes = Draft::new(head(3, 9), &[]).bytes();
    let sheet = codec.read(&bytes).expect("accepted");
    let plan = |fullest| {
        judge(sheet, &Answer::Plan { largest: 0, moves: 0, fullest, places: &[], loads: &[0; 3] })
    };
    assert_eq!(plan(0), Ok(()));
    assert!(plan(1).is_err() && plan(2).is_err());
}

#[test]
fn check_only_jobs_have_places_and_weigh_nothing() {
    let mut codec = Codec::default();
    let bytes = Draft::new(head(2, 0), &[job(0, &[0, 1]), job(0, &[1])]).bytes();
    let sheet = codec.read(&bytes).expect("accepted");
    let plan = |places: &[u64], moves| {
        judge(sheet, &Answer::Plan { largest: 0, moves, fullest: 0, places, loads: &[0, 0] })
    };
    assert_eq!(plan(&[0, 1], 0), Ok(()));
    assert_eq!(plan(&[1, 1], 0), Ok(()));
    // Two benches, and one light job with a choice.
    assert_eq!(plan(&[0, 1], 2), Ok(()));
    assert!(plan(&[0, 1], 3).is_err());
    for places in [&[][..], &[0], &[1], &[0, 0], &[2, 1], &[0, 1, 0]] {
        assert_eq!(plan(places, 0), Err("a job is not on an allowed bench"));
    }
    assert!(judge(sheet, &Answer::Long { job: 0 }).is_err());
    for benches in [Set::one(0), Set::one(1), Set::first(2)] {
        assert!(judge(sheet, &Answer::None { benches, moves: 0 }).is_err());
    }
    assert_eq!(has_rival(sheet, 1000), Some(true));
    // A booking blocks at T = 0, and a check-only job adds nothing to it.
    let day = booked(head(2, 0), &[(1, 1)], &[job(0, &[0, 1]), job(0, &[0])]);
    assert!(day_blocks(&day, &[1]) && day_blocks(&day, &[0, 1]) && !day_blocks(&day, &[0]));
}

#[test]
fn tiny_days_before_the_judge() {
    let mut rng = Rng::new(7);
    let (mut planner, mut codec) = (Planner::new(), Codec::default());
    for _ in 0..20_000 {
        let size = days::tiny(&mut rng);
        let day = days::any(&mut rng, size);
        let bytes = day.draft().bytes();
        let sheet = codec.read(&bytes).expect("accepted");
        let answer = planner.plan(&bytes, Rooms::FULL).expect("accepted");
        assert_eq!(judge(sheet, &answer), Ok(()), "{day:?}");
        if has_rival(sheet, 100_000) == Some(true) {
            assert!(matches!(answer, Answer::Plan { .. }), "{day:?}");
        }
    }
}
