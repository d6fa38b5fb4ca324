//! Bookings: cases that are the same in every run, of reading and of writing.

use crate::check::Check;
use crate::fixed_reading::{accepted, fault, HEAD, JOB};
use second::codec::sheet::{Booked, Head, Job, NOTHING_BOOKED};
use second::gen::draft::{booking_frame, frame, job_frame, Draft};
use second::gen::tables::Tables;
use second::hex;

const MOST: u64 = (1 << 20) - 1;

/// Benches and the minutes for which they are booked, in the order of the frames.
type Bookings = [(u64, u64)];

pub fn all(check: &mut Check) {
    taken(check);
    out_of_place(check);
    lacking(check);
    twice(check);
    written(check);
    refused(check);
    table_lengths(check);
    past_the_last_bench(check);
}

/// HEAD's sheet with one job and these bookings before it.
fn sheet(head: Head, bookings: &Bookings) -> Draft {
    let mut sheet = Draft::new(head, &[JOB]);
    let frames = bookings.iter().map(|&(bench, minutes)| booking_frame(bench, minutes));
    sheet.frames.splice(1..1, frames);
    sheet
}

fn booked(bookings: &Bookings) -> Booked {
    let mut booked = NOTHING_BOOKED;
    for &(bench, minutes) in bookings {
        booked[bench as usize] = minutes;
    }
    booked
}

fn taken(check: &mut Check) {
    check.class("reading: bookings that are taken");
    let rows: [&Bookings; 6] = [
        &[(0, 1)],
        &[(1, MOST)],
        &[(1, 30), (0, 20)],
        &[(0, 0)],
        &[(0, 0), (1, 0)],
        &[(1, 0), (0, MOST)],
    ];
    for bookings in rows {
        let mut sheet = sheet(HEAD, bookings);
        let expected = accepted(HEAD, &booked(bookings), &[JOB]);
        for _ in 0..3 {
            let reading = check.read(&sheet.bytes());
            check.expect("taken", reading == expected, || hex::print(&sheet.bytes()));
            sheet.frames.insert(2, frame(2, 4, &[0xFF; 4]));
        }
    }
    for benches in 1..=64 {
        let head = Head { benches, ..HEAD };
        let mut draft = Draft::booked(head, &[MOST; 64], &[]);
        draft.frames.drain(1 + benches as usize..65);
        check.read(&draft.bytes());
    }
}

/// A booking in every gap of a sheet, with and without another in its place.
fn out_of_place(check: &mut Check) {
    check.class("reading: bookings in every gap");
    for bookings in [&[][..], &[(0, 30)], &[(0, 0)]] {
        let plain = sheet(HEAD, bookings);
        for gap in 0..=plain.frames.len() {
            for minutes in [0, 1] {
                let mut more = plain.clone();
                more.frames.insert(gap, booking_frame(1, minutes));
                let in_place = plain.booking_gaps().contains(&gap);
                let expected = if in_place {
                    accepted(HEAD, &booked(&[bookings, &[(1, minutes)]].concat()), &[JOB])
                } else {
                    fault(4, plain.place(gap) as u64)
                };
                let reading = check.read(&more.bytes());
                check.expect("its place", reading == expected, || hex::print(&more.bytes()));
            }
        }
    }
}

/// Every number of benches from 2 on and every bench, booked for 0 minutes or more.
fn lacking(check: &mut Check) {
    check.class("reading: every booked bench");
    for benches in 2..=64 {
        for bench in 0..64 {
            for minutes in [0, 1] {
                let sheet = sheet(Head { benches, ..HEAD }, &[(bench, minutes)]);
                let reading = check.read(&sheet.bytes());
                let holds = (reading == fault(14, 10)) == (bench >= benches);
                check.expect("fault 14", holds, || hex::print(&sheet.bytes()));
            }
        }
    }
}

/// 15 at its edge, and before and after 14.
fn twice(check: &mut Check) {
    check.class("reading: benches booked twice");
    let rows: [(&Bookings, u64, u64); 7] = [
        (&[(0, 1), (0, 1)], 15, 17),
        (&[(0, 0), (0, 1)], 15, 17),
        (&[(1, 1), (1, 0)], 15, 17),
        (&[(0, 0), (1, 5), (0, 0)], 15, 24),
        (&[(2, 0), (2, 0)], 14, 10),
        (&[(0, 1), (2, 1), (0, 1)], 14, 17),
        (&[(0, 1), (0, 1), (2, 1)], 15, 17),
    ];
    for (bookings, number, place) in rows {
        let mut draft = sheet(HEAD, bookings);
        // A job with faults of its own comes later.
        for job in [JOB, Job::default()] {
            let at = 1 + bookings.len();
            draft.frames[at] = job_frame(job);
            let reading = check.read(&draft.bytes());
            check
                .expect("14 or 15", reading == fault(number, place), || hex::print(&draft.bytes()));
        }
        let mut apart = sheet(HEAD, bookings);
        apart.frames.insert(2, frame(0, 4, &[0; 4]));
        check.read(&apart.bytes());
    }
}

fn written(check: &mut Check) {
    check.class("writing: bookings that are taken");
    let head = "11 00 07 06 10 38 00 00 01 20";
    let bookings = "14 00 04 00 00 00 C0 14 00 04 0B FF FF C0";
    let expected = hex::parse(&[head, bookings, "13 00 00"].join(" "));
    let three = Head { benches: 3, ..HEAD };
    let tables = Tables::booked(three, &booked(&[(2, MOST), (0, 3)]), &[]);
    let writing = check.write(&tables);
    check.expect("by rising bench", writing.sheet == expected, || hex::print(&expected));
    for benches in 1..=64 {
        let mut booked = [MOST; 64];
        booked[benches as usize..].fill(0);
        let writing = check.write(&Tables::booked(Head { benches, ..HEAD }, &booked, &[]));
        let holds = writing.word == 13 + 7 * benches;
        check.expect("every bench booked", holds, || hex::print(&writing.sheet));
    }
}

/// 14 at its edges, and its order among the other faults of the writer.
fn refused(check: &mut Check) {
    check.class("writing: fault 14");
    let (three, job) = (Head { benches: 3, ..HEAD }, JOB);
    let long = Job { minutes: 5, allowed: 7 << 61 };
    let bad_benches = Head { benches: 65, ..HEAD };
    let bad_share = Head { p: 7, ..three };
    let rows: [(Head, &Bookings, Job, u64); 14] = [
        (three, &[(0, MOST)], job, 34),
        (three, &[(0, MOST + 1)], job, 14 << 32),
        (three, &[(2, u64::MAX)], job, 14 << 32 | 2),
        (three, &[(2, 1 << 32 | 5)], job, 14 << 32 | 2),
        (three, &[(3, 1)], job, 14 << 32 | 3),
        (three, &[(63, 1)], job, 14 << 32 | 63),
        (three, &[(3, 0), (63, 0)], job, 27),
        (three, &[(1, MOST + 1), (5, 1)], job, 14 << 32 | 1),
        (three, &[(5, 1), (63, MOST + 1)], job, 14 << 32 | 5),
        (bad_benches, &[(1, MOST + 1)], job, 7 << 32),
        (bad_share, &[(1, MOST + 1)], job, 8 << 32),
        (three, &[(4, 1)], Job { minutes: MOST + 1, ..job }, 14 << 32 | 4),
        (three, &[(4, 1)], Job { allowed: 0, ..job }, 14 << 32 | 4),
        (three, &[(4, 1)], long, 14 << 32 | 4),
    ];
    for (head, bookings, job, word) in rows {
        let tables = Tables::booked(head, &booked(bookings), &[job]);
        let writing = check.write(&tables);
        check.expect("14 in its order", writing.word == word, || format!("{tables:?}"));
    }
    // Before 9 and before 13.
    let many = Tables::booked(three, &booked(&[(3, 1)]), &vec![job; 513]);
    for room in [0, 8000] {
        let writing = check.write_into(&many, room);
        check.expect("14 first", writing.word == 14 << 32 | 3, String::new);
    }
}

/// Every length of the table of bookings, with a number in each entry or with bytes FF in the last.
fn table_lengths(check: &mut Check) {
    check.class("writing: every length of the bookings");
    for benches in [1, 3, 63, 64] {
        let whole = Tables::booked(Head { benches, ..HEAD }, &[0x0F_0F05; 64], &[]);
        for length in 0..=whole.booked.len() {
            let mut tables = whole.clone();
            tables.booked.truncate(length);
            check.write(&tables);
            tables.booked.iter_mut().for_each(|byte| *byte = 0);
            tables.booked.iter_mut().rev().take(2).for_each(|byte| *byte = 0x0F);
            check.write(&tables);
        }
    }
}

/// "one number for each of 64 benches": a later entry is 0, or fault 14 with its number.
fn past_the_last_bench(check: &mut Check) {
    check.class("writing: bookings past the 64th");
    for benches in [3, 64] {
        for bytes in (1..=24).chain([800, 8 * 6000]) {
            let mut tables = Tables::new(Head { benches, ..HEAD }, &[JOB]);
            tables.booked = vec![0; 8 * 64 + bytes];
            let writing = check.write(&tables);
            check.expect("all 0", writing.word == 27, || hex::print(&writing.sheet));
            tables.booked[8 * 64 + bytes - 1] = 1;
            let last = 64 + (bytes as u64 - 1) / 8;
            let writing = check.write(&tables);
            check.expect("the last", writing.word == 14 << 32 | last, || bytes.to_string());
            // A lower bench with a fault comes first, and a bad head before both.
            tables.booked[8 * 63 + 7] = 1;
            let writing = check.write(&tables);
            check.expect("bench 63", writing.word == 14 << 32 | 63, || bytes.to_string());
            tables.head.q = 0;
            let writing = check.write(&tables);
            check.expect("the head", writing.word == 8 << 32, || bytes.to_string());
        }
    }
}
