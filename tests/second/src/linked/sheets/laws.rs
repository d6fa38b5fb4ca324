//! Laws between two answers of the library itself.

use crate::check::{Check, Reading};
use second::codec::door::{entry, fault_number, FRONT_ENTRIES};
use second::codec::frame::Frame;
use second::codec::sheet::{Head, Job};
use second::gen::damage::damage;
use second::gen::day::Day;
use second::gen::draft::{foreign_frame, frame, Draft};
use second::gen::tables::Tables;
use second::hex;

pub fn round(check: &mut Check) {
    every_gap(check);
    many_gaps(check);
    zero_bookings(check);
    written_again(check);
}

/// A sheet as a list of frames, taken or with one fault.
fn some_sheet(check: &mut Check) -> Draft {
    let count = check.rng.below(5);
    let mut sheet = Day::random(&mut check.rng, count).draft();
    sheet.scatter_bookings(&mut check.rng, 2);
    if check.rng.one_in(2) {
        let number = check.rng.pick(&[2, 3, 4, 5, 6, 7, 8, 11, 12, 14, 15]);
        damage(&mut check.rng, &mut sheet, number);
    }
    sheet.frames.retain(|frame| !frame.is_empty());
    sheet
}

/// The gaps between whole frames: before the first, and behind each.
fn gaps(sheet: &Draft) -> usize {
    let whole = |frame: &Vec<u8>| Frame::first(frame).is_some();
    1 + sheet.frames.iter().take_while(|frame| whole(frame)).count()
}

/// "Adding whole frames of other versions between frames changes nothing that is read [...];
/// fault places counted in bytes move along." So do bookings of 0 minutes in their place. `added`
/// has, for each frame added, its gap and its length.
fn moved(old: &Draft, reading: &Reading, added: &[(usize, usize)]) -> Reading {
    let place = reading.word as u32 as usize;
    let before_fault = |gap: usize| old.place(gap) <= place;
    let moves = match fault_number(reading.word) {
        2..=11 | 14 | 15 => {
            added.iter().filter(|&&(gap, _)| before_fault(gap)).map(|(_, bytes)| bytes).sum()
        }
        _ => 0,
    };
    Reading { word: reading.word + moves as u64, table: reading.table.clone() }
}

fn every_gap(check: &mut Check) {
    check.class("law: one foreign frame in every gap");
    for _ in 0..8 {
        let sheet = some_sheet(check);
        let old = check.read(&sheet.bytes());
        for gap in 0..gaps(&sheet) {
            for version in (0..16).filter(|&version| version != 1) {
                let kind = check.rng.range(0, 15);
                let length = check.rng.below(14);
                let foreign = frame(version, kind, &check.rng.bytes(length));
                let expected = moved(&sheet, &old, &[(gap, foreign.len())]);
                let mut more = sheet.clone();
                more.frames.insert(gap, foreign);
                compare(check, "foreign frames change nothing", &more, &expected);
            }
        }
    }
}

fn many_gaps(check: &mut Check) {
    check.class("law: foreign frames in many gaps");
    for _ in 0..150 {
        let sheet = some_sheet(check);
        let old = check.read(&sheet.bytes());
        let mut added = Vec::new();
        let mut more = sheet.clone();
        // From the last gap to the first, so that the earlier gaps keep their numbers.
        for gap in (0..gaps(&sheet)).rev() {
            for _ in 0..check.rng.below(3) {
                let most = check.rng.pick(&[4, 40, 1000]);
                let body = check.rng.below(most);
                let foreign = foreign_frame(&mut check.rng, body);
                added.push((gap, foreign.len()));
                more.frames.insert(gap, foreign);
            }
        }
        let expected = moved(&sheet, &old, &added);
        compare(check, "foreign frames change nothing", &more, &expected);
    }
}

/// "A booking of 0 is the same as none": one more for a bench without any, in every place.
fn zero_bookings(check: &mut Check) {
    check.class("law: a booking of 0 minutes in its place");
    for _ in 0..150 {
        let mut sheet = some_sheet(check);
        let mut old = check.read(&sheet.bytes());
        for _ in 0..3 {
            let before = sheet.clone();
            let Some(gap) = sheet.add_zero_booking(&mut check.rng) else { break };
            old = moved(&before, &old, &[(gap, sheet.frames[gap].len())]);
            compare(check, "a booking of 0 minutes changes nothing", &sheet, &old);
        }
    }
}

fn compare(check: &mut Check, law: &str, sheet: &Draft, expected: &Reading) {
    let bytes = sheet.bytes();
    let reading = check.read(&bytes);
    check.expect(law, reading == *expected, || hex::print(&bytes));
}

/// What is read of a sheet, written again, is the sheet without its foreign frames and bookings of
/// 0 minutes, the other bookings by rising bench.
fn written_again(check: &mut Check) {
    check.class("law: read, then written again");
    for _ in 0..150 {
        let count = check.rng.below(10);
        let plain = Day::random(&mut check.rng, count).draft();
        let mut sheet = plain.clone();
        sheet.scatter_bookings(&mut check.rng, 3);
        sheet.sprinkle(&mut check.rng, 4);
        let Reading { word, table } = check.read(&sheet.bytes());
        let head = Head {
            benches: entry(&table, 0),
            p: entry(&table, 1),
            q: entry(&table, 2),
            target: entry(&table, 3),
        };
        let job = |job| {
            let [minutes, allowed] = [0, 1].map(|at| entry(&table, FRONT_ENTRIES + 2 * job + at));
            Job { minutes, allowed }
        };
        let jobs: Vec<Job> = (0..word as usize).map(job).collect();
        let booked = std::array::from_fn(|bench| entry(&table, 4 + bench));
        let again = check.write(&Tables::booked(head, &booked, &jobs)).sheet;
        let holds = again == plain.bytes();
        check.expect("a sheet written again", holds, || hex::print(&sheet.bytes()));
    }
}
