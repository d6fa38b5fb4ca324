//! Planning through tables: layouts, room, and bytes that keep their contents.

use super::algorithm::Planner;
use super::door::{self, BEST, LONG, NONE, NOT_PASSED, PASSED, PLAN};
use super::example_tests::{booked, head, job};
use super::set::Set;
use crate::codec::door::word;
use crate::codec::fault::Fault;
use crate::codec::sheet::{Head, Job};
use crate::gen::day::Day;
use crate::gen::draft::Draft;

const FILL: u8 = 0xA5;

/// The result word and the tables of places, loads and answer, of so many bytes each.
fn plan(head: Head, jobs: &[Job], rooms: [usize; 3]) -> (u64, [Vec<u8>; 3]) {
    let mut tables = rooms.map(|room| vec![FILL; room]);
    let [places, loads, answer] = &mut tables;
    let sheet = Draft::new(head, jobs).bytes();
    (door::plan(&mut Planner::new(), &sheet, places, loads, answer), tables)
}

/// The same for the best target.
fn best(day: &Day, rooms: [usize; 3]) -> (u64, [Vec<u8>; 3]) {
    let mut tables = rooms.map(|room| vec![FILL; room]);
    let [places, loads, answer] = &mut tables;
    let sheet = day.draft().bytes();
    (door::best(&mut Planner::new(), &sheet, places, loads, answer), tables)
}

/// These entries, and so many bytes behind them that keep their contents.
fn table(entries: &[u64], more: usize) -> Vec<u8> {
    let mut bytes: Vec<u8> = entries.iter().flat_map(|entry| entry.to_le_bytes()).collect();
    bytes.extend(vec![FILL; more]);
    bytes
}

#[test]
fn a_plan_fills_three_tables() {
    let expected = [table(&[1, 0, 0, 0], 9), table(&[6, 2], 8), table(&[6, 1, 0], 1)];
    assert_eq!(plan(head(2, 4), &[job(2, &[0, 1]); 4], [41, 24, 25]), (PLAN, expected));
    // The fullest bench is another than 0.
    let jobs = [job(4, &[0]), job(9, &[2]), job(5, &[1]), job(4, &[1])];
    let expected = [table(&[0, 2, 1, 1], 0), table(&[4, 9, 9], 0), table(&[9, 0, 1], 40)];
    assert_eq!(plan(head(3, 9), &jobs, [32, 24, 64]), (PLAN, expected));
}

#[test]
fn check_only_jobs_have_their_entries_in_the_table_of_places() {
    let jobs = [job(0, &[1]), job(5, &[0]), job(0, &[0, 1]), job(0, &[1])];
    let expected = [table(&[1, 0, 0, 1], 3), table(&[5, 0], 0), table(&[5, 0, 0], 0)];
    assert_eq!(plan(head(2, 9), &jobs, [35, 16, 24]), (PLAN, expected));
    let expected = [table(&[1, 1], 8), table(&[0, 0], 8), table(&[0, 0, 0], 0)];
    assert_eq!(plan(head(2, 0), &[job(0, &[1]); 2], [24, 24, 24]), (PLAN, expected));
    // They need room as any job.
    let no_room = word(Err(Fault::new(13, 0)));
    let untouched = [table(&[], 15), table(&[], 16), table(&[], 24)];
    assert_eq!(plan(head(2, 0), &[job(0, &[1]); 2], [15, 16, 24]), (no_room, untouched));
}

#[test]
fn long_and_none_leave_places_and_loads() {
    let (jobs, rooms) = ([job(5, &[0, 1]); 3], [24, 16, 29]);
    let untouched = || (table(&[], 24), table(&[], 16));
    let (places, loads) = untouched();
    let none = [places, loads, table(&[0b11 << 62, 0, 0], 5)];
    assert_eq!(plan(head(2, 8), &jobs, rooms), (NONE, none));
    let (places, loads) = untouched();
    let long = [places, loads, table(&[0, 0, 0], 5)];
    assert_eq!(plan(head(2, 4), &jobs, rooms), (LONG, long));
}

#[test]
fn a_begun_entry_is_no_room() {
    let no_room = word(Err(Fault::new(13, 0)));
    for target in [4, 8, 9] {
        for rooms in [[23, 16, 24], [24, 15, 24], [24, 16, 23], [24, 16, 16], [24, 16, 0]] {
            let untouched = rooms.map(|room| table(&[], room));
            let answer = plan(head(2, target), &[job(5, &[0, 1]); 3], rooms);
            assert_eq!(answer, (no_room, untouched));
        }
    }
}

#[test]
fn a_best_target_fills_three_tables() {
    // Example 8, whatever the sheet's target is: tried are 8, 4, 2 and 3.
    for target in [0, 4, 8] {
        let day = Day::new(head(2, target), vec![job(2, &[0, 1]); 4]);
        let expected = [table(&[1, 0, 0, 0], 9), table(&[6, 2], 8), table(&[4, 6, 1, 0, 4], 7)];
        assert_eq!(best(&day, [41, 24, 47]), (BEST, expected));
    }
    // The fullest bench is another than 0, and the plan is not that of the start.
    let day = booked(head(2, 9), &[(1, 4)], &[job(5, &[0, 1])]);
    let expected = [table(&[1], 0), table(&[0, 9], 0), table(&[5, 9, 0, 1, 5], 0)];
    assert_eq!(best(&day, [8, 16, 40]), (BEST, expected));
    let day = Day::new(head(1, 9), vec![]);
    let expected = [table(&[], 0), table(&[0], 1), table(&[0, 0, 0, 0, 1], 40)];
    assert_eq!(best(&day, [0, 9, 80]), (BEST, expected));
}

#[test]
fn a_best_target_has_five_entries() {
    let no_room = word(Err(Fault::new(13, 0)));
    let day = Day::new(head(2, 9), vec![job(5, &[0, 1]); 3]);
    let short = [[23, 16, 40], [24, 15, 40], [24, 16, 39], [24, 16, 32], [24, 16, 24], [0, 0, 0]];
    for rooms in short {
        let untouched = rooms.map(|room| table(&[], room));
        assert_eq!(best(&day, rooms), (no_room, untouched));
    }
    assert_eq!(best(&day, [24, 16, 40]).0, BEST);
    // Fault 12 comes before the tables.
    let day = Day::new(head(3, 9), vec![job(7, &[0]), job(5, &[0, 1, 2])]);
    assert_eq!(best(&day, [0, 0, 0]).0, word(Err(Fault::new(12, 1))));
}

/// The result word of a checked list and the answer table, of so many bytes.
fn check_plan(day: &Day, list: &[u8], bytes: usize) -> (u64, Vec<u8>) {
    let mut answer = table(&[], bytes);
    (door::check_plan(&mut Planner::new(), &day.draft().bytes(), list, &mut answer), answer)
}

/// The same for a set.
fn check_set(day: &Day, set: u64, bytes: usize) -> (u64, Vec<u8>) {
    let mut answer = table(&[], bytes);
    (door::check_set(&mut Planner::new(), &day.draft().bytes(), set, &mut answer), answer)
}

#[test]
fn a_checked_list_fills_two_entries() {
    let day = booked(head(2, 7), &[(1, 6)], &[job(7, &[0, 1]), job(1, &[0])]);
    assert_eq!(check_plan(&day, &table(&[1, 0], 0), 19), (PASSED, table(&[13, 1], 3)));
    assert_eq!(check_plan(&day, &table(&[1, 1], 0), 24), (NOT_PASSED, table(&[0, 0], 8)));
    // A begun entry counts, and the bytes that it lacks are 0.
    assert_eq!(check_plan(&day, &table(&[1, 0], 0)[..9], 16), (PASSED, table(&[13, 1], 0)));
    let list = word(Err(Fault::new(16, 0)));
    for places in [&table(&[1, 0], 0)[..8], &table(&[1, 0], 1), &[0; 8 * 513], &[]] {
        assert_eq!(check_plan(&day, places, 16), (list, table(&[], 16)));
    }
}

#[test]
fn a_checked_set_fills_one_entry() {
    let day = |target| Day::new(head(2, target), vec![job(1, &[1]), job(8, &[0]), job(1, &[0])]);
    assert_eq!(check_set(&day(8), 1 << 63, 8), (PASSED, table(&[0], 0)));
    assert_eq!(check_set(&day(8), 1 << 62, 15), (NOT_PASSED, table(&[0], 7)));
    assert_eq!(check_set(&day(7), 1 << 62, 16), (LONG, table(&[1], 8)));
    let set = |place| word(Err(Fault::new(17, place)));
    for target in [7, 8] {
        assert_eq!(check_set(&day(target), 0, 8), (set(0), table(&[], 8)));
        assert_eq!(check_set(&day(target), u64::MAX, 8), (set(2), table(&[], 8)));
        assert_eq!(check_set(&day(target), 1, 8), (set(63), table(&[], 8)));
    }
}

/// The same for a page, as a table of bytes.
fn check_page(day: &Day, page: &[u8], bytes: usize) -> (u64, Vec<u8>) {
    let mut answer = table(&[], bytes);
    (door::check_page(&mut Planner::new(), &day.draft().bytes(), page, &mut answer), answer)
}

#[test]
fn a_checked_page_fills_one_entry() {
    let bench = |bench: usize| Set::one(bench).0;
    let day = |target| booked(head(9, target), &[(0, 9), (8, 9)], &[job(1, &[1]), job(8, &[1])]);
    let page = |sets: &[u64]| table(sets, 0);
    let passed = (PASSED, table(&[0], 0));
    assert_eq!(check_page(&day(8), &[], 8), passed);
    assert_eq!(check_page(&day(8), &page(&[bench(8), bench(1), bench(0)]), 8), passed);
    let second = page(&[bench(8), bench(2), bench(0), bench(3)]);
    assert_eq!(check_page(&day(8), &second, 15), (NOT_PASSED, table(&[1], 7)));
    for page in [&second[..], &[]] {
        assert_eq!(check_page(&day(7), page, 16), (LONG, table(&[1], 8)));
    }
    // A begun entry counts, and the bytes that it lacks are 0: those of benches 0 to 7.
    let last = page(&[bench(0), bench(8)]);
    assert_eq!(check_page(&day(8), &last[..15], 8), passed);
    for target in [7, 8] {
        let fault = |page: &[u8], number, place| {
            let expected = (word(Err(Fault::new(number, place))), table(&[], 8));
            assert_eq!(check_page(&day(target), page, 8), expected, "{page:?}");
        };
        fault(&last[..14], 17, 1);
        fault(&[0], 17, 0);
        fault(&page(&[bench(0), bench(0) | bench(9)]), 17, 1);
        fault(&page(&[bench(0), bench(1), bench(0), 0]), 18, 2);
        fault(&page(&[bench(0), bench(1), 0, bench(0)]), 17, 2);
    }
}

#[test]
fn the_answer_of_a_check_needs_room_before_the_paper_is_tried() {
    let no_room = word(Err(Fault::new(13, 0)));
    let day = Day::new(head(2, 8), vec![job(5, &[0, 1])]);
    for bytes in 0..16 {
        for list in [&table(&[0], 0)[..], &table(&[0, 0], 0), &[]] {
            assert_eq!(check_plan(&day, list, bytes), (no_room, table(&[], bytes)));
        }
    }
    for bytes in 0..8 {
        for set in [0, 1, 1 << 63] {
            assert_eq!(check_set(&day, set, bytes), (no_room, table(&[], bytes)));
            let page = table(&[set, set], 0);
            assert_eq!(check_page(&day, &page, bytes), (no_room, table(&[], bytes)));
        }
        assert_eq!(check_page(&day, &[], bytes), (no_room, table(&[], bytes)));
    }
    // Fault 12 comes before the table.
    let day = Day::new(head(3, 9), vec![job(7, &[0]), job(5, &[0, 1, 2])]);
    assert_eq!(check_plan(&day, &[], 0), (word(Err(Fault::new(12, 1))), vec![]));
    assert_eq!(check_set(&day, 0, 0), (word(Err(Fault::new(12, 1))), vec![]));
    assert_eq!(check_page(&day, &[], 0), (word(Err(Fault::new(12, 1))), vec![]));
}
