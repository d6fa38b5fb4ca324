//! Each generator does what it is for, in the second codec's eyes.

use super::bay::{alike::alike, days};
use super::damage::{damage, DAMAGES};
use super::day::{bench_bit, Day, MOST_MINUTES};
use super::draft;
use super::tables::{spoil, Tables, SPOILS};
use super::{check_only, lists};
use crate::codec::door::{fault_number, Codec};
use crate::codec::sheet::{Head, Job};
use crate::judge::load_of;
use crate::planner::algorithm::is_assignment;
use crate::rng::Rng;

const TIMES: usize = 2000;

#[test]
fn fields_are_packed_as_example_12_says() {
    let head = draft::head_frame(Head { benches: 2, p: 4, q: 7, target: 9 });
    assert_eq!(head, crate::hex::parse("11 00 07 04 10 38 00 00 01 20"));
    assert_eq!(draft::get(&head, draft::BENCHES), 2);
    assert_eq!(draft::get(&head, draft::TARGET), 9);
    let booking = draft::booking_frame(2, MOST_MINUTES);
    assert_eq!(booking, crate::hex::parse("14 00 04 0B FF FF C0"));
}

#[test]
fn random_days_are_taken() {
    let mut rng = Rng::new(1);
    let mut codec = Codec::default();
    for _ in 0..TIMES {
        let count = rng.below(20);
        let day = Day::random(&mut rng, count);
        let mut draft = day.draft();
        draft.scatter_bookings(&mut rng, 3);
        let sheet = codec.read(&draft.bytes()).expect("a random day is taken");
        assert_eq!((sheet.head(), sheet.jobs()), (day.head, &day.jobs[..]));
        assert_eq!(*sheet.booked(), day.booked);
    }
}

#[test]
fn half_of_the_random_days_have_bookings() {
    let mut rng = Rng::new(6);
    let has_bookings = |day: Day| day.booked.iter().any(|&minutes| minutes > 0);
    let booked = (0..TIMES).filter(|_| has_bookings(Day::random(&mut rng, 3))).count();
    assert!(booked > TIMES * 2 / 5 && booked < TIMES * 3 / 5, "{booked}");
}

#[test]
fn half_of_the_random_days_have_check_only_jobs() {
    let mut rng = Rng::new(7);
    let (mut some, mut all) = (0, 0);
    for _ in 0..TIMES {
        let count = 1 + rng.below(5);
        let day = Day::random(&mut rng, count);
        let zeros = day.jobs.iter().filter(|job| job.minutes == 0).count();
        some += usize::from(zeros > 0);
        all += usize::from(zeros == count);
    }
    assert!(some > TIMES * 2 / 5 && some < TIMES * 3 / 5, "{some}");
    assert!(all > TIMES / 50 && all < some / 2, "{all}");
}

#[test]
fn days_of_check_only_jobs_are_taken() {
    let mut rng = Rng::new(8);
    let mut codec = Codec::default();
    let mut met = [0; 4];
    for _ in 0..TIMES {
        let (benches, count) = (rng.range(1, 64), rng.below(20));
        let day = check_only::only(&mut rng, benches, count);
        let sheet = codec.read(&day.draft().bytes()).expect("a day of check-only jobs is taken");
        assert!(sheet.jobs().len() == count && sheet.jobs().iter().all(|job| job.minutes == 0));
        let booked = sheet.booked().iter().any(|&minutes| minutes > 0);
        met[usize::from(day.head.target > 0) + 2 * usize::from(booked)] += 1;
    }
    assert!(met.iter().all(|&times| times > TIMES / 5), "{met:?}");
}

#[test]
fn days_near_fault_12_fall_on_both_sides() {
    let mut rng = Rng::new(2);
    let mut codec = Codec::default();
    let mut met = [0; 16];
    for _ in 0..TIMES {
        let bytes = Day::near_fault_12(&mut rng).draft().bytes();
        let number = codec.read(&bytes).err().map_or(0, |fault| fault.number);
        met[number as usize] += 1;
    }
    assert!(met[0] > TIMES / 10 && met[12] > TIMES / 10, "{met:?}");
    assert_eq!(met[0] + met[12], TIMES);
}

#[test]
fn damage_meets_its_fault() {
    let mut rng = Rng::new(3);
    let mut codec = Codec::default();
    for number in DAMAGES {
        for _ in 0..TIMES / 10 {
            let mut draft = Day::random(&mut rng, 5).draft();
            damage(&mut rng, &mut draft, number);
            let met = codec.read(&draft.bytes()).err().map_or(0, |fault| fault.number);
            assert_eq!(met, number);
        }
    }
}

#[test]
fn spoilt_fields_meet_their_fault() {
    let mut rng = Rng::new(4);
    let mut codec = Codec::default();
    let mut out = [0; 8192];
    for number in SPOILS {
        for _ in 0..TIMES / 10 {
            let mut day = Day::random(&mut rng, 5);
            spoil(&mut rng, &mut day, number);
            let Tables { head, booked, minutes, allowed } = day.tables();
            let word = codec.write(head, &booked, &minutes, &allowed, &mut out);
            assert_eq!(fault_number(word), number, "{day:?}");
        }
    }
}

#[test]
fn padding_brings_a_sheet_to_its_length() {
    let mut rng = Rng::new(5);
    let mut codec = Codec::default();
    for length in [16, 17, 18, 19, 20, 1000, 65_536, 65_537, 200_000] {
        let day = Day::new(Day::random(&mut rng, 0).head, Vec::new());
        let mut draft = day.draft();
        draft.pad_to(&mut rng, length);
        assert_eq!(draft.len(), length);
        let number = codec.read(&draft.bytes()).err().map_or(0, |fault| fault.number);
        assert_eq!(number, u32::from(length > 65_536));
    }
}

/// Every list once.
#[test]
fn all_lists_of_so_many_places() {
    assert_eq!(lists::all(0, 3).collect::<Vec<_>>(), [[0; 0]]);
    let mut all: Vec<Vec<u64>> = lists::all(3, 2).collect();
    assert!(all.iter().flatten().all(|&place| place <= 2));
    all.sort();
    all.dedup();
    assert_eq!(all.len(), 27);
}

/// Both are assignments with equal loads, and two jobs above 0 minutes are elsewhere.
#[test]
fn exchanged_lists_have_equal_loads() {
    let (mut rng, mut codec) = (Rng::new(10), Codec::default());
    let mut found = 0;
    for turn in 0..TIMES {
        let size = if turn % 50 == 0 { days::full(&mut rng) } else { days::tiny(&mut rng) };
        let day = alike(&mut rng, size);
        let list = lists::assignment(&mut rng, &day);
        let bytes = day.draft().bytes();
        let sheet = codec.read(&bytes).expect("days with jobs that are alike are taken");
        let Some([one, two]) = lists::exchanged(&mut rng, &day, &list) else { continue };
        found += 1;
        assert!([&list, &one, &two].iter().all(|list| is_assignment(sheet, list)));
        let elsewhere: Vec<usize> = (0..list.len()).filter(|&job| one[job] != two[job]).collect();
        assert!(elsewhere.len() == 2 && elsewhere.iter().all(|&job| day.jobs[job].minutes > 0));
        let benches = 0..day.head.benches as usize;
        for bench in benches {
            assert_eq!(load_of(sheet, &one, bench), load_of(sheet, &two, bench));
        }
    }
    assert!(found > TIMES / 4, "{found}");
}

/// Benches that a job allows, that it does not, and what is no bench of the head.
#[test]
fn places_of_a_job() {
    let job = Job { minutes: 5, allowed: bench_bit(1) | bench_bit(3) };
    let day = Day::new(Head { benches: 5, p: 4, q: 7, target: 9 }, vec![job]);
    assert_eq!(lists::others(&job, 1), [3]);
    assert_eq!(lists::others(&job, 4), [1, 3]);
    assert_eq!(lists::not_allowed(&day, &job), [0, 2, 4]);
    let mut rng = Rng::new(11);
    assert!((0..TIMES).all(|_| lists::no_bench(&mut rng, 5, 3) >= 5));
}
