//! Days with booked benches.

use super::example_tests::{booked, head, job, plan_day, planned, Owned};
use crate::codec::fault::Fault;
use crate::codec::sheet::Head;
use crate::planner::algorithm::{Comparison, Planner};

fn none(benches: &[usize], moves: u64) -> Owned {
    Owned::None { benches: benches.to_vec(), moves }
}

#[test]
fn booked_minutes_are_in_the_loads() {
    assert_eq!(plan_day(&booked(head(2, 9), &[(1, 9)], &[])), planned(9, 0, 1, &[], &[0, 9]));
    // Example 2 with the bench booked: 21 × 9 = 189 is not above 39 × 5 = 195.
    let one = |minutes| plan_day(&booked(head(1, 5), &[(0, minutes)], &[job(5, &[0])]));
    assert_eq!(one(4), planned(9, 0, 0, &[0], &[9]));
    assert_eq!(one(5), none(&[0], 0));
}

#[test]
fn long_speaks_of_jobs_only() {
    assert_eq!(plan_day(&booked(head(1, 7), &[(0, 13)], &[])), planned(13, 0, 0, &[], &[13]));
    assert_eq!(plan_day(&booked(head(1, 7), &[(0, 14)], &[])), none(&[0], 0));
    assert_eq!(plan_day(&booked(head(1, 0), &[(0, 1)], &[])), none(&[0], 0));
    assert_eq!(plan_day(&booked(head(1, 4), &[(0, 100)], &[job(5, &[0])])), Owned::Long(0));
}

#[test]
fn a_booking_moves_jobs() {
    // Example 8: one job moves; with 2 booked on bench 0 two do, with 2 on bench 1 one does.
    let jobs = [job(2, &[0, 1]); 4];
    let with = |bench| plan_day(&booked(head(2, 4), &[(bench, 2)], &jobs));
    assert_eq!(with(0), planned(6, 2, 0, &[1, 1, 0, 0], &[6, 4]));
    assert_eq!(with(1), planned(6, 1, 0, &[1, 0, 0, 0], &[6, 4]));
}

#[test]
fn a_booking_forces_a_heavy_job() {
    // Example 7: the job goes to bench 1, and to bench 0 where 9 + 5 would be above the bound.
    let with = |minutes| plan_day(&booked(head(2, 5), &[(1, minutes)], &[job(5, &[0, 1])]));
    assert_eq!(with(4), planned(9, 0, 1, &[1], &[0, 9]));
    assert_eq!(with(5), planned(5, 0, 0, &[0], &[5, 5]));
}

#[test]
fn fault_12_does_not_know_bookings() {
    let jobs = [job(7, &[0]), job(5, &[0, 1, 2])];
    let day = booked(Head { target: 100, ..head(3, 7) }, &[(0, 90)], &jobs);
    assert_eq!(plan_day(&day), Owned::Fault(12, 1));
}

#[test]
fn plans_are_the_same_or_not_whatever_is_booked() {
    let jobs = [job(5, &[0, 1]), job(5, &[0, 1])];
    for bookings in [&[][..], &[(0, 5)], &[(0, 5), (1, 10)], &[(1, 1_048_575)]] {
        let sheet = booked(head(2, 9), bookings, &jobs).draft().bytes();
        let compare = |first: &[u64], second: &[u64]| Planner::new().compare(&sheet, first, second);
        assert_eq!(compare(&[0, 1], &[0, 1]), Ok(Comparison::Same));
        // Equal loads.
        assert_eq!(compare(&[0, 1], &[1, 0]), Ok(Comparison::Different));
        assert_eq!(compare(&[1, 1], &[1, 0]), Ok(Comparison::Different));
        assert_eq!(compare(&[0, 2], &[0, 1]), Err(Fault::new(13, 0)));
    }
}
