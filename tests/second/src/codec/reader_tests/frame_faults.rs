//! Faults 1 to 6: of a sheet's length and of its frames.

use super::{answer, job, of_text, END, EXAMPLE, FOREIGN, HEAD, JOB};
use crate::gen::draft::{frame, head_frame, Draft};
use crate::hex;

#[test]
fn fault_1_sheet_too_long() {
    let padded = |length: usize| {
        let mut draft = Draft::new(EXAMPLE, &[]);
        draft.frames.push(frame(0, 0, &vec![0; length - 16]));
        answer(&draft.bytes()).map(drop)
    };
    assert_eq!(padded(65_536), Ok(()));
    assert_eq!(padded(65_537), Err((1, 0)));
    assert_eq!(answer(&[0xFF; 65_537]), Err((1, 0)));
    assert_eq!(answer(&[0xFF; 65_536]), Err((2, 0)));
}

#[test]
fn fault_2_sheet_cut() {
    assert_eq!(of_text(&["13"]), Err((2, 0)));
    assert_eq!(of_text(&["11 00"]), Err((2, 0)));
    assert_eq!(of_text(&["11 00 07 04"]), Err((2, 0)));
    assert_eq!(of_text(&[HEAD]), Err((2, 10)));
    assert_eq!(of_text(&[HEAD, "13 00"]), Err((2, 10)));
    assert_eq!(of_text(&[HEAD, "13 00 01"]), Err((2, 10)));
    assert_eq!(of_text(&[HEAD, END, "20 00 01"]), Err((2, 13)));
    assert_eq!(of_text(&[FOREIGN]), Err((2, 4)));
    // Numbers 3 to 5 come after 2 at the same frame, and before it at an earlier one.
    assert_eq!(of_text(&["15 FF FF"]), Err((2, 0)));
    assert_eq!(of_text(&["15 00 00", "13"]), Err((3, 0)));
}

#[test]
fn fault_3_unknown_kind() {
    for kind in (0..16).filter(|kind| !(1..=4).contains(kind)) {
        let unknown = format!("1{kind:X} 00 00");
        assert_eq!(of_text(&[&unknown]), Err((3, 0)));
        assert_eq!(of_text(&[HEAD, &unknown, END]), Err((3, 10)));
        assert_eq!(of_text(&[HEAD, END, &unknown]), Err((3, 13)));
    }
}

#[test]
fn fault_4_out_of_place() {
    assert_eq!(of_text(&[JOB, HEAD, END]), Err((4, 0)));
    assert_eq!(of_text(&[END]), Err((4, 0)));
    assert_eq!(of_text(&[HEAD, HEAD, END]), Err((4, 10)));
    assert_eq!(of_text(&[HEAD, JOB, HEAD, END]), Err((4, 24)));
    assert_eq!(of_text(&[HEAD, END, HEAD]), Err((4, 13)));
    assert_eq!(of_text(&[HEAD, END, JOB]), Err((4, 13)));
    assert_eq!(of_text(&[HEAD, END, FOREIGN, END]), Err((4, 17)));
    // 4 comes before 5 and 6.
    assert_eq!(of_text(&[HEAD, END, "13 00 01 FF"]), Err((4, 13)));
}

#[test]
fn fault_5_body_length() {
    for (before, kind, body) in [("", 1, 7), (HEAD, 2, 11), (HEAD, 3, 0), (HEAD, 4, 4)] {
        for length in (0..30).filter(|&length| length != body) {
            let mut bytes = hex::parse(before);
            let place = bytes.len();
            bytes.extend(frame(1, kind, &vec![0xFF; length]));
            assert_eq!(answer(&bytes), Err((5, place)));
        }
    }
    assert_eq!(of_text(&["11 00 06 04 10 38 00 00 01"]), Err((5, 0)));
}

#[test]
fn fault_6_spare_bit() {
    for bit in 0..5 {
        let mut head = head_frame(EXAMPLE);
        head[9] |= 1 << bit;
        assert_eq!(answer(&head), Err((6, 0)));
    }
    for bit in 0..4 {
        let mut bytes = Draft::new(EXAMPLE, &[job(5, &[0])]).bytes();
        bytes[23] |= 1 << bit;
        assert_eq!(answer(&bytes), Err((6, 10)));
    }
    // 6 comes before 7 and 8: a head of ones, with nothing behind it.
    assert_eq!(of_text(&["11 00 07 FF FF FF FF FF FF FF"]), Err((6, 0)));
}
