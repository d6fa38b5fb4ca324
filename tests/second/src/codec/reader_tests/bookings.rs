//! Bookings: what is read of them, their place in the row, faults 14 and 15.

use super::{answer, job, of_text, BOOKING, END, EXAMPLE, FOREIGN, HEAD, JOB};
use crate::codec::door::Codec;
use crate::codec::sheet::{Booked, Head, NOTHING_BOOKED};
use crate::gen::draft::{booking_frame, Draft};
use crate::hex;

/// A booking of bench 1 with 0 minutes, and one of bench 2, which the head lacks.
const ZERO: &str = "14 00 04 04 00 00 00";
const LACKING: &str = "14 00 04 08 00 00 00";

fn booked(frames: &[&str]) -> Booked {
    let mut codec = Codec::default();
    *codec.read(&hex::parse(&frames.join(" "))).expect("accepted").booked()
}

#[test]
fn bookings_are_read() {
    let mut expected = NOTHING_BOOKED;
    assert_eq!(booked(&[HEAD, END]), expected);
    assert_eq!(booked(&[HEAD, ZERO, END]), expected);
    expected[1] = 5;
    assert_eq!(booked(&[HEAD, BOOKING, JOB, END]), expected);
    expected[0] = 1_048_575;
    assert_eq!(booked(&[HEAD, BOOKING, "14 00 04 03 FF FF C0", END]), expected);
    let jobs = vec![job(5, &[0, 1])];
    assert_eq!(of_text(&[HEAD, ZERO, JOB, END]), Ok((EXAMPLE, jobs)));
}

#[test]
fn bookings_of_one_sheet_do_not_stay_for_the_next() {
    let mut codec = Codec::default();
    for (frames, minutes) in [([HEAD, BOOKING, END], 5), ([HEAD, FOREIGN, END], 0)] {
        let sheet = codec.read(&hex::parse(&frames.join(" "))).expect("accepted").booked()[1];
        assert_eq!(sheet, minutes);
    }
}

#[test]
fn frames_of_other_versions_stand_between() {
    let frames = [FOREIGN, HEAD, FOREIGN, BOOKING, FOREIGN, "24 00 00", JOB, END];
    assert_eq!(booked(&frames)[1], 5);
    assert_eq!(of_text(&[HEAD, BOOKING, FOREIGN, BOOKING, END]), Err((15, 21)));
    assert_eq!(of_text(&[HEAD, JOB, FOREIGN, BOOKING, END]), Err((4, 28)));
}

#[test]
fn fault_4_out_of_place() {
    assert_eq!(of_text(&[BOOKING, HEAD, END]), Err((4, 0)));
    assert_eq!(of_text(&[HEAD, JOB, BOOKING, END]), Err((4, 24)));
    assert_eq!(of_text(&[HEAD, BOOKING, JOB, JOB, BOOKING, END]), Err((4, 45)));
    assert_eq!(of_text(&[HEAD, END, BOOKING]), Err((4, 13)));
    assert_eq!(of_text(&[HEAD, BOOKING, HEAD, END]), Err((4, 17)));
    // 4 comes before 5 and 6, and these before 14 and 15.
    assert_eq!(of_text(&[HEAD, JOB, "14 00 00", END]), Err((4, 24)));
    assert_eq!(of_text(&[HEAD, "14 00 03 FF FF FF", END]), Err((5, 10)));
    assert_eq!(of_text(&[HEAD, BOOKING, "14 00 04 04 00 01 41", END]), Err((6, 17)));
    assert_eq!(of_text(&[HEAD, "14 00 04 08 00 00 01", END]), Err((6, 10)));
}

#[test]
fn fault_6_spare_bit() {
    for bit in 0..6 {
        let mut frame = booking_frame(0, 1);
        frame[6] |= 1 << bit;
        assert_eq!(answer(&[hex::parse(HEAD), frame].concat()), Err((6, 10)));
    }
}

#[test]
fn fault_14_bench() {
    for benches in 1..=64 {
        for bench in 0..64 {
            for minutes in [0, 1] {
                let mut draft = Draft::new(Head { benches, ..EXAMPLE }, &[]);
                draft.frames.insert(1, booking_frame(bench, minutes));
                let expected = if bench < benches { Ok(()) } else { Err((14, 10)) };
                assert_eq!(answer(&draft.bytes()).map(drop), expected);
            }
        }
    }
}

#[test]
fn fault_15_booked_twice() {
    for first in [BOOKING, ZERO] {
        for second in [BOOKING, ZERO] {
            assert_eq!(of_text(&[HEAD, first, second, END]), Err((15, 17)));
        }
    }
    // 14 comes before 15, and at an earlier frame 15 comes first.
    assert_eq!(of_text(&[HEAD, LACKING, LACKING, END]), Err((14, 10)));
    assert_eq!(of_text(&[HEAD, BOOKING, LACKING, BOOKING, END]), Err((14, 17)));
    assert_eq!(of_text(&[HEAD, BOOKING, BOOKING, LACKING, END]), Err((15, 17)));
    // Both come before the faults of a later job.
    let bad_job = "12 00 0B 00 00 00 00 00 00 00 00 00 00 00";
    assert_eq!(of_text(&[HEAD, ZERO, ZERO, bad_job, END]), Err((15, 17)));
}
