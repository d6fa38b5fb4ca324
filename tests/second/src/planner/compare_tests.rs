//! The comparison of two plans: "plans are the same when every job is on the same bench. Such plans
//! have equal loads, but not conversely."

use super::algorithm::{Comparison, Planner};
use super::door;
use super::example_tests::{booked, head, job};
use crate::codec::door::{word, Codec};
use crate::codec::fault::Fault;
use crate::codec::sheet::Job;
use crate::gen::day::{bench_bit, Day};
use crate::gen::lists::{self, table};
use crate::judge::load_of;

fn day() -> Day {
    Day::new(head(3, 9), vec![job(5, &[0, 1]), job(5, &[0, 1]), job(3, &[1])])
}

fn sheet() -> Vec<u8> {
    day().draft().bytes()
}

fn compare(first: &[u64], second: &[u64]) -> Result<Comparison, Fault> {
    Planner::new().compare(&sheet(), first, second)
}

/// The loads of an assignment.
fn loads(day: &Day, list: &[u64]) -> Vec<u64> {
    let mut codec = Codec::default();
    let bytes = day.draft().bytes();
    let sheet = codec.read(&bytes).expect("accepted");
    (0..day.head.benches as usize).map(|bench| load_of(sheet, list, bench)).collect()
}

/// The two benches of a job of the full day; their numbers differ in one bit, each bit in its turn.
fn benches_of(job: u64) -> [u64; 2] {
    [job % 64, (job % 64) ^ (1 << (job % 6))]
}

/// 512 jobs on 64 benches. Every fifth job is check-only, the first among them.
fn full_day() -> Day {
    let allowed = |job: u64| benches_of(job).map(bench_bit).iter().sum();
    let minutes = |job: u64| if job.is_multiple_of(5) { 0 } else { 1 + job % 4 };
    let jobs = (0..512).map(|job| Job { minutes: minutes(job), allowed: allowed(job) });
    Day::new(head(64, 100), jobs.collect())
}

#[test]
fn plans_are_the_same_when_every_job_is_on_the_same_bench() {
    let plans = [[0, 0, 1], [0, 1, 1], [1, 0, 1], [1, 1, 1]];
    for first in plans {
        for second in plans {
            let same = compare(&first, &second) == Ok(Comparison::Same);
            assert_eq!(same, first == second, "{first:?} and {second:?}");
            assert!(!same || loads(&day(), &first) == loads(&day(), &second));
        }
    }
    let no_job = Day::new(head(3, 9), Vec::new()).draft().bytes();
    assert_eq!(Planner::new().compare(&no_job, &[], &[]), Ok(Comparison::Same));
}

#[test]
fn equal_jobs_exchanged_are_another_plan_with_equal_loads() {
    let (one, two) = ([0, 1, 1], [1, 0, 1]);
    assert_eq!(loads(&day(), &one), loads(&day(), &two));
    assert_eq!(compare(&one, &two), Ok(Comparison::Different));
    // 2 and 3 minutes for 5.
    let parts = Day::new(head(2, 9), [2, 3, 5].map(|minutes| job(minutes, &[0, 1])).to_vec());
    let (one, two) = ([0, 0, 1], [1, 1, 0]);
    assert_eq!(loads(&parts, &one), loads(&parts, &two));
    let compared = Planner::new().compare(&parts.draft().bytes(), &one, &two);
    assert_eq!(compared, Ok(Comparison::Different));
}

#[test]
fn every_job_of_a_full_sheet_counts() {
    let day = full_day();
    let on = |bench: usize| -> Vec<u64> { (0..512).map(|job| benches_of(job)[bench]).collect() };
    let (list, other) = (on(0), on(1));
    let sheet = day.draft().bytes();
    let mut planner = Planner::new();
    let mut compare = |second: &[u64]| planner.compare(&sheet, &list, second);
    assert_eq!(compare(&list.clone()), Ok(Comparison::Same));
    for job in 0..512 {
        let moved = lists::with(&list, job, other[job]);
        assert_eq!(compare(&moved), Ok(Comparison::Different), "job {job}");
        let is_check_only = day.jobs[job].minutes == 0;
        assert_eq!(loads(&day, &moved) == loads(&day, &list), is_check_only, "job {job}");
        let not_allowed = lists::with(&list, job, list[job] ^ 63);
        assert_eq!(compare(&not_allowed), Err(Fault::new(13, 1)), "job {job}");
    }
    // The first half elsewhere, and all.
    assert_eq!(compare(&[&other[..256], &list[256..]].concat()), Ok(Comparison::Different));
    assert_eq!(compare(&other), Ok(Comparison::Different));
}

#[test]
fn a_list_gives_each_job_one_allowed_bench() {
    let good: &[u64] = &[0, 1, 1];
    // Bench 1 in some bits of a number is no bench.
    let wide = [64 + 1, 256 + 1, (1 << 32) + 1, (1 << 63) + 1].map(|place| [0, 1, place]);
    let bad: [&[u64]; 5] = [&[], &[0, 1], &[0, 1, 1, 1], &[0, 2, 1], &[0, 1, 64]];
    for bad in bad.into_iter().chain(wide.iter().map(|list| &list[..])) {
        assert_eq!(compare(bad, good), Err(Fault::new(13, 0)));
        assert_eq!(compare(bad, bad), Err(Fault::new(13, 0)));
        assert_eq!(compare(good, bad), Err(Fault::new(13, 1)));
    }
    assert_eq!(Planner::new().compare(&[], &[], good), Err(Fault::new(2, 0)));
}

/// Bench 0 or 2 for job 2, which allows bench 1 alone: the head has both.
#[test]
fn a_bench_that_the_job_does_not_allow_is_a_fault() {
    let (good, elsewhere, bad, worse) = ([0, 1, 1], [1, 1, 1], [0, 1, 0], [2, 1, 2]);
    for first in [bad, worse] {
        for second in [good, elsewhere, bad, worse] {
            assert_eq!(compare(&first, &second), Err(Fault::new(13, 0)));
        }
    }
    for first in [good, elsewhere] {
        for second in [bad, worse] {
            assert_eq!(compare(&first, &second), Err(Fault::new(13, 1)));
        }
    }
}

/// Whatever is wrong with the second.
#[test]
fn the_first_list_is_judged_first() {
    for first in [&[0, 1, 0][..], &[0, 1], &[0, 1, 1, 1]] {
        for second in [&[2, 1, 1][..], &[], &[0, 1, 1, 1], &[0, 1, 64]] {
            assert_eq!(compare(first, second), Err(Fault::new(13, 0)));
        }
    }
}

#[test]
fn begun_entries_count_in_lists() {
    let day = booked(head(3, 9), &[(0, 2)], &[job(5, &[0, 1]), job(5, &[0, 1]), job(0, &[1, 2])]);
    let sheet = day.draft().bytes();
    let (list, moved) = (table(&[0, 1, 1]), table(&[0, 1, 2]));
    let word_of =
        |first: &[u8], second: &[u8]| door::compare(&mut Planner::new(), &sheet, first, second);
    let fault = |place| word(Err(Fault::new(13, place)));
    for length in 17..=24 {
        assert_eq!(word_of(&list[..length], &list), door::SAME);
        assert_eq!(word_of(&list, &moved[..length]), door::DIFFERENT);
        assert_eq!(word_of(&list[..length], &moved[..length]), door::DIFFERENT);
        let not_allowed = table(&[0, 1, 0]);
        assert_eq!(word_of(&list, &not_allowed[..length]), fault(1));
        let longer = [&list[..], &list[..length - 16]].concat();
        assert_eq!(word_of(&longer, &list), fault(0));
    }
    assert_eq!(word_of(&list[..16], &list), fault(0));
    assert_eq!(word_of(&list, &list[..16]), fault(1));
}
