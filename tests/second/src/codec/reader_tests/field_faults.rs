//! Faults 7 to 12: of the fields of head and jobs.

use super::{answer, job, of_fields, EXAMPLE};
use crate::codec::sheet::{Head, Job};
use crate::gen::draft::{job_frame, Draft};

#[test]
fn fault_7_benches() {
    for benches in 0..128 {
        let expected = if (1..=64).contains(&benches) { Ok(()) } else { Err((7, 0)) };
        assert_eq!(of_fields(Head { benches, ..EXAMPLE }, &[]), expected);
    }
    // 7 comes before 8.
    assert_eq!(of_fields(Head { benches: 65, p: 0, q: 0, target: 0 }, &[]), Err((7, 0)));
}

#[test]
fn fault_8_share() {
    let shares = [(4, 7), (99, 100), (126, 127), (73, 127), (2, 3), (7, 7), (5, 9), (0, 0)];
    let taken = [true, true, true, true, true, false, false, false];
    for ((p, q), taken) in shares.into_iter().zip(taken) {
        let expected = if taken { Ok(()) } else { Err((8, 0)) };
        assert_eq!(of_fields(Head { p, q, ..EXAMPLE }, &[]), expected, "{p}/{q}");
    }
    for (p, q) in [(1, 0), (127, 127), (127, 126), (72, 127), (1, 2), (1, 1), (3, 7), (8, 7)] {
        assert_eq!(of_fields(Head { p, q, ..EXAMPLE }, &[]), Err((8, 0)), "{p}/{q}");
    }
}

#[test]
fn fault_9_too_many_jobs() {
    let jobs = vec![job(5, &[0]); 513];
    assert_eq!(of_fields(EXAMPLE, &jobs[..512]), Ok(()));
    assert_eq!(of_fields(EXAMPLE, &jobs), Err((9, 10 + 512 * 14)));
    // 9 comes before 11 and after 6.
    let mut draft = Draft::new(EXAMPLE, &jobs);
    draft.frames[513] = job_frame(Job::default());
    assert_eq!(answer(&draft.bytes()), Err((9, 10 + 512 * 14)));
    draft.frames[513][13] = 1;
    assert_eq!(answer(&draft.bytes()), Err((6, 10 + 512 * 14)));
}

#[test]
fn all_minutes_are_taken() {
    for minutes in [0, 1, 1_048_575] {
        assert_eq!(of_fields(EXAMPLE, &[job(minutes, &[0])]), Ok(()));
        assert_eq!(of_fields(EXAMPLE, &[job(1, &[0]), job(minutes, &[0, 1])]), Ok(()));
        assert_eq!(of_fields(EXAMPLE, &[job(minutes, &[])]), Err((11, 10)));
        assert_eq!(of_fields(EXAMPLE, &[job(1, &[0]), job(minutes, &[2])]), Err((11, 24)));
    }
    assert_eq!(of_fields(EXAMPLE, &[job(0, &[0]); 512]), Ok(()));
    assert_eq!(of_fields(EXAMPLE, &[job(0, &[0]); 513]), Err((9, 10 + 512 * 14)));
}

#[test]
fn fault_11_allowed() {
    for benches in 1..=64 {
        let head = Head { benches, ..EXAMPLE };
        assert_eq!(of_fields(head, &[job(5, &[benches - 1])]), Ok(()));
        assert_eq!(of_fields(head, &[job(5, &[])]), Err((11, 10)));
        for bench in benches..64 {
            assert_eq!(of_fields(head, &[job(5, &[bench])]), Err((11, 10)));
            assert_eq!(of_fields(head, &[job(5, &[0, bench])]), Err((11, 10)));
        }
    }
}

#[test]
fn fault_12_long_job_with_choice() {
    let head = Head { benches: 3, ..EXAMPLE };
    let three = &[0, 1, 2];
    // Example 10.
    assert_eq!(of_fields(head, &[job(7, &[0]), job(4, three)]), Ok(()));
    assert_eq!(of_fields(head, &[job(7, &[0]), job(5, three)]), Err((12, 1)));
    assert_eq!(of_fields(head, &[job(7, &[0]), job(7, &[0, 1])]), Ok(()));
    assert_eq!(of_fields(head, &[job(1, three)]), Err((12, 0)));
    // 7 × 0 is never above 4 × W, also where W is 0.
    assert_eq!(of_fields(head, &[job(7, &[0]), job(0, three)]), Ok(()));
    assert_eq!(of_fields(head, &[job(0, three); 3]), Ok(()));
    assert_eq!(of_fields(head, &[job(0, three), job(1, three)]), Err((12, 1)));
    // The longest job may come later; the place is the lowest job number.
    assert_eq!(of_fields(head, &[job(4, three), job(7, &[2])]), Ok(()));
    let jobs = [job(1, &[0]), job(6, three), job(5, three), job(7, &[2])];
    assert_eq!(of_fields(head, &jobs), Err((12, 1)));
    // 12 comes after every fault of a frame.
    let bytes = Draft::new(head, &[job(1, three)]).bytes();
    assert_eq!(answer(&bytes[..24]), Err((2, 24)));
}
