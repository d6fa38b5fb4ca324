//! "the fullest bench, the lowest on a tie".

use super::example_tests::{booked, head, job, plan, plan_day, planned, Owned};
use crate::codec::sheet::Job;
use crate::gen::day::Day;

/// The fullest bench of a day with a plan.
fn fullest(day: &Day) -> usize {
    match plan_day(day) {
        Owned::Plan { fullest, .. } => fullest,
        other => panic!("no plan: {other:?}"),
    }
}

#[test]
fn ties_name_the_lowest_bench() {
    let jobs = [job(5, &[3]), job(5, &[1]), job(3, &[0]), job(5, &[2])];
    assert_eq!(plan(head(4, 5), &jobs), planned(5, 0, 1, &[3, 1, 0, 2], &[3, 5, 5, 5]));
    assert_eq!(plan(head(2, 5), &[job(5, &[0, 1]); 2]), planned(5, 0, 0, &[1, 0], &[5, 5]));
    // One minute more on the higher bench, then on the lower one.
    let tied =
        |lower, higher| fullest(&booked(head(3, 5), &[], &[job(lower, &[1]), job(higher, &[2])]));
    assert_eq!([tied(4, 5), tied(5, 5), tied(5, 4)], [2, 1, 1]);
}

#[test]
fn a_booked_bench_and_a_loaded_one_are_as_full() {
    let lower_booked = booked(head(3, 5), &[(1, 5)], &[job(5, &[2])]);
    assert_eq!(plan_day(&lower_booked), planned(5, 0, 1, &[2], &[0, 5, 5]));
    let higher_booked = booked(head(3, 5), &[(2, 5)], &[job(5, &[1])]);
    assert_eq!(plan_day(&higher_booked), planned(5, 0, 1, &[1], &[0, 5, 5]));
    let both_booked = booked(head(3, 5), &[(1, 5), (2, 5)], &[]);
    assert_eq!(plan_day(&both_booked), planned(5, 0, 1, &[], &[0, 5, 5]));
    // A booking and a job on one bench, against a job alone.
    let together = |bench, alone| {
        fullest(&booked(head(3, 5), &[(bench, 2)], &[job(3, &[bench]), job(5, &[alone])]))
    };
    assert_eq!([together(1, 2), together(2, 1)], [1, 1]);
}

#[test]
fn a_booked_bench_without_a_job_is_the_fullest() {
    let day = booked(head(3, 5), &[(1, 7)], &[job(5, &[0]), job(3, &[2]), job(3, &[2])]);
    assert_eq!(plan_day(&day), planned(7, 0, 1, &[0, 2, 2], &[5, 7, 6]));
}

#[test]
fn neither_most_jobs_nor_the_longest_job_make_the_fullest_bench() {
    let jobs = [job(1, &[0]), job(2, &[0]), job(1, &[0]), job(9, &[1])];
    assert_eq!(plan(head(2, 9), &jobs), planned(9, 0, 1, &[0, 0, 0, 1], &[4, 9]));
    let jobs = [job(8, &[0]), job(5, &[1]), job(4, &[1])];
    assert_eq!(plan(head(2, 9), &jobs), planned(9, 0, 1, &[0, 1, 1], &[8, 9]));
}

#[test]
fn with_nothing_to_do_bench_0_is_the_fullest() {
    for benches in 1..=64 {
        for target in [0, 9] {
            let expected = planned(0, 0, 0, &[], &vec![0; benches as usize]);
            assert_eq!(plan(head(benches, target), &[]), expected);
        }
    }
}

#[test]
fn each_of_64_benches_can_be_the_fullest() {
    for bench in 0..64 {
        let mut loads = [4; 64];
        loads[bench] = 5;
        let by_booking = Day { booked: loads, ..Day::new(head(64, 5), vec![]) };
        assert_eq!(plan_day(&by_booking), planned(5, 0, bench, &[], &loads));
        let jobs: Vec<Job> = (0..64).map(|bench| job(loads[bench], &[bench])).collect();
        let places: Vec<u64> = (0..64).collect();
        assert_eq!(plan(head(64, 5), &jobs), planned(5, 0, bench, &places, &loads));
    }
}

#[test]
fn the_fullest_bench_is_that_of_the_plan_and_not_of_the_start() {
    // Example 8 with 5 minutes on bench 1: job 0 moves there, 7 against 6.
    let jobs = [[job(2, &[0, 1]); 4].as_slice(), &[job(3, &[1]), job(2, &[1])]].concat();
    assert_eq!(plan(head(2, 4), &jobs), planned(7, 1, 1, &[1, 0, 0, 0, 1, 1], &[6, 7]));
    // A neutral tree is directed last.
    let jobs = [job(6, &[0]), job(7, &[1, 2])];
    assert_eq!(plan(head(3, 7), &jobs), planned(7, 0, 2, &[0, 2], &[6, 0, 7]));
}
