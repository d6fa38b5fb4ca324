//! The reader on hand-made sheets, each fault on both sides of its edge.

mod bookings;
mod field_faults;
mod frame_faults;

use super::door::Codec;
use super::fault::Fault;
use super::sheet::{Head, Job};
use crate::gen::day::bench_bit;
use crate::gen::draft::Draft;
use crate::hex;

const HEAD: &str = "11 00 07 04 10 38 00 00 01 20";
const JOB: &str = "12 00 0B 00 00 5C 00 00 00 00 00 00 00 00";
const BOOKING: &str = "14 00 04 04 00 01 40";
const END: &str = "13 00 00";
const FOREIGN: &str = "21 00 01 FF";

const EXAMPLE: Head = Head { benches: 2, p: 4, q: 7, target: 9 };

fn answer(bytes: &[u8]) -> Result<(Head, Vec<Job>), (u32, usize)> {
    let mut codec = Codec::default();
    match codec.read(bytes) {
        Ok(sheet) => Ok((sheet.head(), sheet.jobs().to_vec())),
        Err(Fault { number, place }) => Err((number, place)),
    }
}

fn of_text(frames: &[&str]) -> Result<(Head, Vec<Job>), (u32, usize)> {
    answer(&hex::parse(&frames.join(" ")))
}

fn of_fields(head: Head, jobs: &[Job]) -> Result<(), (u32, usize)> {
    answer(&Draft::new(head, jobs).bytes()).map(|read| assert_eq!(read, (head, jobs.to_vec())))
}

fn job(minutes: u64, benches: &[u64]) -> Job {
    Job { minutes, allowed: benches.iter().map(|&bench| bench_bit(bench)).sum() }
}

#[test]
fn examples_11_and_12() {
    assert_eq!(answer(&[]), Err((2, 0)));
    let jobs = vec![job(5, &[0, 1]); 3];
    assert_eq!(of_text(&[HEAD, JOB, JOB, JOB, END]), Ok((EXAMPLE, jobs.clone())));
    assert_eq!(of_text(&[HEAD, FOREIGN, JOB, JOB, JOB, END]), Ok((EXAMPLE, jobs)));
    assert_eq!(of_text(&[HEAD, END]), Ok((EXAMPLE, vec![])));
}

#[test]
fn frames_of_other_versions_are_skipped() {
    let jobs = vec![job(5, &[0, 1])];
    for first in (0x00..=0xFF).filter(|first| first / 16 != 1) {
        let other = format!("{first:02X} 00 02 FF FF");
        let frames = [&*other, HEAD, &other, JOB, &other, END, &other];
        assert_eq!(of_text(&frames), Ok((EXAMPLE, jobs.clone())));
    }
    // An end of another version ends nothing.
    assert_eq!(of_text(&[HEAD, "23 00 00"]), Err((2, 13)));
}
