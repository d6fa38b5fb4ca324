//! Examples 1 to 12 of document 01.

use super::algorithm::{Answer, Planner, Rooms};
use super::set::Set;
use crate::codec::fault::Fault;
use crate::codec::sheet::{Head, Job};
use crate::gen::day::Day;
use crate::gen::draft::Draft;
use crate::hex;
use crate::samples::example_12;

/// An answer that outlives the planner.
#[derive(Debug, PartialEq, Eq)]
pub enum Owned {
    Plan { largest: u64, moves: u64, fullest: usize, places: Vec<u64>, loads: Vec<u64> },
    Long(usize),
    None { benches: Vec<usize>, moves: u64 },
    Fault(u32, usize),
}

pub fn answer(bytes: &[u8], rooms: Rooms) -> Owned {
    match Planner::new().plan(bytes, rooms) {
        Err(Fault { number, place }) => Owned::Fault(number, place),
        Ok(Answer::Long { job }) => Owned::Long(job),
        Ok(Answer::None { benches, moves }) => Owned::None { benches: benches.collect(), moves },
        Ok(Answer::Plan { largest, moves, fullest, places, loads }) => {
            let (places, loads) = (places.to_vec(), loads.to_vec());
            Owned::Plan { largest, moves, fullest, places, loads }
        }
    }
}

pub fn head(benches: u64, target: u64) -> Head {
    Head { benches, p: 4, q: 7, target }
}

pub fn job(minutes: u64, benches: &[usize]) -> Job {
    let allowed = benches.iter().fold(Set::EMPTY, |all, &bench| all | Set::one(bench));
    Job { minutes, allowed: allowed.0 }
}

/// A day with these benches booked.
pub fn booked(head: Head, bookings: &[(usize, u64)], jobs: &[Job]) -> Day {
    let mut day = Day::new(head, jobs.to_vec());
    for &(bench, minutes) in bookings {
        day.booked[bench] = minutes;
    }
    day
}

pub fn plan(head: Head, jobs: &[Job]) -> Owned {
    plan_day(&Day::new(head, jobs.to_vec()))
}

pub fn plan_day(day: &Day) -> Owned {
    answer(&day.draft().bytes(), Rooms::FULL)
}

pub fn planned(largest: u64, moves: u64, fullest: usize, places: &[u64], loads: &[u64]) -> Owned {
    Owned::Plan { largest, moves, fullest, places: places.to_vec(), loads: loads.to_vec() }
}

#[test]
fn examples_1_to_3() {
    assert_eq!(plan(head(1, 0), &[]), planned(0, 0, 0, &[], &[0]));
    assert_eq!(plan(head(1, 5), &[job(5, &[0])]), planned(5, 0, 0, &[0], &[5]));
    assert_eq!(plan(head(1, 4), &[job(5, &[0])]), Owned::Long(0));
}

#[test]
fn examples_4_and_5() {
    let jobs = [job(5, &[0, 1]); 3];
    assert_eq!(plan(head(2, 8), &jobs), Owned::None { benches: vec![0, 1], moves: 0 });
    assert_eq!(plan(head(2, 9), &jobs), planned(15, 0, 0, &[0, 0, 0], &[15, 0]));
}

#[test]
fn examples_6_and_7() {
    assert_eq!(plan(head(2, 5), &[job(5, &[0, 1]); 2]), planned(5, 0, 0, &[1, 0], &[5, 5]));
    assert_eq!(plan(head(2, 5), &[job(5, &[0, 1])]), planned(5, 0, 1, &[1], &[0, 5]));
}

#[test]
fn example_8() {
    let jobs = [job(2, &[0, 1]); 4];
    assert_eq!(plan(head(2, 4), &jobs), planned(6, 1, 0, &[1, 0, 0, 0], &[6, 2]));
}

#[test]
fn example_9() {
    let with_share = |p, q| plan(Head { benches: 1, p, q, target: 0 }, &[]);
    assert_eq!(with_share(5, 9), Owned::Fault(8, 0));
    assert_eq!(with_share(99, 100), planned(0, 0, 0, &[], &[0]));
    assert_eq!(with_share(7, 7), Owned::Fault(8, 0));
}

#[test]
fn example_10() {
    let jobs = |minutes| [job(7, &[0]), job(minutes, &[0, 1, 2])];
    // 21 × 11 = 231 is not above 39 × 7 = 273.
    assert_eq!(plan(head(3, 7), &jobs(4)), planned(11, 0, 0, &[0, 0], &[11, 0, 0]));
    assert_eq!(plan(head(3, 7), &jobs(5)), Owned::Fault(12, 1));
}

#[test]
fn examples_11_and_12() {
    assert_eq!(answer(&[], Rooms::FULL), Owned::Fault(2, 0));
    let expected = planned(15, 0, 0, &[0, 0, 0], &[15, 0]);
    assert_eq!(answer(&example_12(), Rooms::FULL), expected);
    let mut bytes = example_12();
    bytes.splice(10..10, hex::parse("21 00 01 FF"));
    assert_eq!(answer(&bytes, Rooms::FULL), expected);
}

#[test]
fn short_tables_come_after_the_sheet_and_before_long() {
    let bytes = Draft::new(head(2, 4), &[job(5, &[0]); 3]).bytes();
    let rooms = |places, loads| answer(&bytes, Rooms { places, loads });
    assert_eq!(rooms(3, 2), Owned::Long(0));
    assert_eq!(rooms(2, 2), Owned::Fault(13, 0));
    assert_eq!(rooms(3, 1), Owned::Fault(13, 0));
    assert_eq!(answer(&[], Rooms { places: 0, loads: 0 }), Owned::Fault(2, 0));
}
