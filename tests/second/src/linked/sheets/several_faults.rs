//! Reading: several faults of one frame, the same in every run.

use crate::check::Check;
use crate::fixed_reading::{HEAD, JOB};
use second::codec::sheet::{Head, Job};
use second::gen::day::bench_bit;
use second::gen::draft::{self, booking_frame, head_frame, job_frame, set, Draft};
use second::hex;

pub fn all(check: &mut Check) {
    faults_of_one_head(check);
    faults_of_one_job(check);
    faults_of_one_booking(check);
}

/// Every set of faults that one head can have together.
fn faults_of_one_head(check: &mut Check) {
    check.class("reading: several faults of one head");
    for faults in 0..128 {
        let has = |fault: u32| faults >> fault & 1 == 1;
        let benches = if has(0) { 65 } else { 2 };
        let p = if has(1) { 7 } else { 4 };
        let mut head = head_frame(Head { benches, p, ..HEAD });
        set(&mut head, draft::HEAD_SPARE, u64::from(has(2)));
        if has(3) {
            head.push(0);
            set(&mut head, draft::LENGTH, 8);
        }
        set(&mut head, draft::KIND, if has(4) { 9 } else { 1 });
        let mut sheet = Draft::new(HEAD, &[JOB]);
        // A second head, or the only one.
        if has(5) {
            sheet.frames.insert(1, head);
        } else {
            sheet.frames[0] = head;
        }
        if has(6) {
            sheet.frames.truncate(if has(5) { 2 } else { 1 });
            sheet.frames.last_mut().map(Vec::pop);
        }
        check.read(&sheet.bytes());
    }
}

/// Every set of faults that one job can have together, with 5 minutes and with 0: the faults are
/// the same.
fn faults_of_one_job(check: &mut Check) {
    check.class("reading: several faults of one job");
    for faults in 0..256 {
        let has = |fault: u32| faults >> fault & 1 == 1;
        let with = |minutes| {
            let allowed = if has(0) { bench_bit(2) } else { bench_bit(0) };
            let mut job = job_frame(Job { minutes, allowed });
            set(&mut job, draft::JOB_SPARE, u64::from(has(1)));
            if has(2) {
                job.pop();
                set(&mut job, draft::LENGTH, 10);
            }
            set(&mut job, draft::KIND, if has(3) { 0 } else { 2 });
            let before = if has(4) { 512 } else { 1 };
            let mut sheet = Draft::new(HEAD, &vec![JOB; before]);
            // In its place, before the head, or after the end.
            let at = if has(5) { 0 } else { before + 1 + usize::from(has(6)) };
            sheet.frames.insert(at, job);
            if has(7) {
                sheet.frames.truncate(at + 1);
                sheet.frames[at].pop();
            }
            sheet.bytes()
        };
        let [five, zero] = [with(5), with(0)].map(|sheet| check.read(&sheet).word);
        check.expect("0 minutes are no fault", five == zero, || hex::print(&with(0)));
    }
}

/// Every set of faults that one booking can have together.
fn faults_of_one_booking(check: &mut Check) {
    check.class("reading: several faults of one booking");
    for faults in 0..512 {
        let has = |fault: u32| faults >> fault & 1 == 1;
        let bench = if has(0) { 2 } else { 1 };
        let mut booking = booking_frame(bench, if has(1) { 0 } else { 30 });
        set(&mut booking, draft::BOOKING_SPARE, u64::from(has(2)));
        if has(3) {
            booking.push(0);
            set(&mut booking, draft::LENGTH, 5);
        }
        set(&mut booking, draft::KIND, if has(4) { 5 } else { draft::BOOKING });
        let mut sheet = Draft::new(HEAD, &[JOB]);
        // The bench's second booking, or its first.
        if has(5) {
            sheet.frames.insert(1, booking_frame(bench.min(1), u64::from(has(1))));
        }
        // In its place, before the head, behind the job, or after the end.
        let at = match (has(6), has(7)) {
            (false, false) => sheet.frames.len() - 2,
            (true, false) => 0,
            (false, true) => sheet.frames.len() - 1,
            (true, true) => sheet.frames.len(),
        };
        sheet.frames.insert(at, booking);
        if has(8) {
            sheet.frames.truncate(at + 1);
            sheet.frames[at].pop();
        }
        check.read(&sheet.bytes());
    }
}
