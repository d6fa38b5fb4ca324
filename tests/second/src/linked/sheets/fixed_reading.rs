//! Reading: cases that are the same in every run. Those of bookings stand in `fixed_bookings`.

use crate::check::{Check, Reading};
use crate::several_faults;
use second::codec::door::table_bytes;
use second::codec::sheet::{Booked, Head, Job, NOTHING_BOOKED};
use second::gen::day::bench_bit;
use second::gen::draft::{self, booking_frame, frame, set, Draft};
use second::hex;
use second::samples;

pub const HEAD: Head = Head { benches: 2, p: 4, q: 7, target: 9 };
pub const JOB: Job = Job { minutes: 5, allowed: 3 << 62 };

pub fn all(check: &mut Check) {
    examples(check);
    sample_sheets(check);
    shares(check);
    benches(check);
    kinds(check);
    body_lengths(check);
    spare_bits(check);
    several_faults::all(check);
    table_lengths(check);
}

pub fn fault(number: u64, place: u64) -> Reading {
    Reading { word: number << 32 | place, table: Vec::new() }
}

/// What is read of these fields.
pub fn accepted(head: Head, booked: &Booked, jobs: &[Job]) -> Reading {
    let head = [head.benches, head.p, head.q, head.target];
    let jobs_fields = jobs.iter().flat_map(|job| [job.minutes, job.allowed]);
    let fields = head.into_iter().chain(*booked).chain(jobs_fields);
    Reading { word: jobs.len() as u64, table: fields.flat_map(u64::to_le_bytes).collect() }
}

fn examples(check: &mut Check) {
    check.class("reading: examples 11 and 12");
    let head = "11 00 07 04 10 38 00 00 01 20";
    let job = "12 00 0B 00 00 5C 00 00 00 00 00 00 00 00";
    let example_5 = accepted(HEAD, &NOTHING_BOOKED, &[JOB; 3]);
    for foreign in ["", "21 00 01 FF"] {
        let sheet = hex::parse(&[head, foreign, job, job, job, "13 00 00"].join(" "));
        let reading = check.read(&sheet);
        check.expect("example 12", reading == example_5, || hex::print(&sheet));
    }
    let reading = check.read(&[]);
    check.expect("example 11", reading == fault(2, 0), String::new);
}

fn sample_sheets(check: &mut Check) {
    check.class("reading: the samples");
    for (name, sheet) in samples::all() {
        let reading = check.read(&sheet);
        let holds = match name {
            "faulty.sheet" => reading == fault(6, 24),
            _ => reading.word <= 512,
        };
        check.expect(name, holds, || hex::print(&sheet));
    }
}

fn shares(check: &mut Check) {
    check.class("reading: every share");
    for p in 0..128 {
        for q in 0..128 {
            check.read(&Draft::new(Head { p, q, ..HEAD }, &[JOB]).bytes());
        }
    }
}

fn benches(check: &mut Check) {
    check.class("reading: every number of benches");
    for benches in 0..128 {
        let head = Head { benches, ..HEAD };
        check.read(&Draft::new(head, &[]).bytes());
        for bench in 0..64 {
            let only = Job { minutes: 5, allowed: bench_bit(bench) };
            let two = Job { minutes: 5, allowed: bench_bit(bench) | bench_bit(0) };
            check.read(&Draft::new(head, &[only]).bytes());
            check.read(&Draft::new(head, &[JOB, two]).bytes());
        }
    }
}

/// Every first byte of a frame, at every place of a sheet.
fn kinds(check: &mut Check) {
    check.class("reading: every version and kind");
    for first in 0..=255 {
        for at in 0..5 {
            for body in [0, 4, 7, 11] {
                let mut sheet = Draft::new(HEAD, &[JOB, JOB]);
                sheet.frames.insert(at, frame(first / 16, first % 16, &vec![0; body]));
                check.read(&sheet.bytes());
                let mut sheet = Draft::new(HEAD, &[JOB, JOB]);
                if at < 4 {
                    sheet.frames[at][0] = first as u8;
                }
                check.read(&sheet.bytes());
            }
        }
    }
}

/// Every kind with every small body length, the body being there or not.
fn body_lengths(check: &mut Check) {
    check.class("reading: body lengths");
    let lengths = (0..40).chain([255, 256, 257, 263, 267, 512, 1792, 2816, 65_535]);
    for length in lengths {
        for at in 0..4 {
            let mut told = Draft::new(HEAD, &[JOB]);
            told.frames.insert(1, booking_frame(1, 30));
            set(&mut told.frames[at], draft::LENGTH, length as u64);
            check.read(&told.bytes());
            let mut there = told;
            there.frames[at].resize(3 + length, 0);
            check.read(&there.bytes());
        }
    }
}

fn spare_bits(check: &mut Check) {
    check.class("reading: spare bits");
    for spare in 0..32 {
        let mut sheet = Draft::new(HEAD, &[JOB, JOB]);
        set(&mut sheet.frames[0], draft::HEAD_SPARE, spare);
        check.read(&sheet.bytes());
        for job in 1..3 {
            let mut sheet = Draft::new(HEAD, &[JOB, JOB]);
            set(&mut sheet.frames[job], draft::JOB_SPARE, spare);
            check.read(&sheet.bytes());
        }
    }
    for spare in 0..64 {
        let mut sheet = Draft::new(HEAD, &[JOB]);
        sheet.frames.insert(1, booking_frame(1, 30));
        set(&mut sheet.frames[1], draft::BOOKING_SPARE, spare);
        check.read(&sheet.bytes());
    }
}

fn table_lengths(check: &mut Check) {
    check.class("reading: every table length");
    for jobs in 0..4 {
        let sheet = Draft::new(HEAD, &vec![JOB; jobs]).bytes();
        for room in 0..table_bytes(jobs) + 20 {
            check.read_into(&sheet, room);
        }
    }
    let full = Draft::new(Head { benches: 64, ..HEAD }, &vec![JOB; 512]).bytes();
    for room in [0, 8, 8224, 8728, 8735, 8736, 8737, 9000] {
        check.read_into(&full, room);
    }
}
