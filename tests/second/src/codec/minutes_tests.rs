//! The writer's table of minutes: jobs of 0 minutes, and jobs for which the table has no minutes.

use super::sheet::{Head, Job};
use super::writer_tests::{fault, written, HEAD, JOB};
use crate::gen::tables::Tables;
use crate::hex;

const CHECK: Job = Job { minutes: 0, ..JOB };

/// The tables of these jobs, cut off at so many bytes of minutes and of benches allowed. After a
/// fault the output keeps its contents.
fn cut(jobs: &[Job], minutes: usize, allowed: usize) -> u64 {
    let mut tables = Tables::new(HEAD, jobs);
    tables.minutes.truncate(minutes);
    tables.allowed.truncate(allowed);
    let (word, out) = written(&tables, 8192);
    assert!(word >> 32 == 0 || out.iter().all(|&byte| byte == 0xEE));
    word
}

#[test]
fn whole_entries_of_0_are_check_only_jobs() {
    let sheet = hex::parse(
        "11 00 07 06 10 38 00 00 01 20
        12 00 0B 00 00 08 00 00 00 00 00 00 00 00
        12 00 0B 00 00 58 00 00 00 00 00 00 00 00
        13 00 00",
    );
    assert_eq!(written(&Tables::new(HEAD, &[CHECK, JOB]), 41), (41, sheet));
    assert_eq!(cut(&[CHECK; 512], 8 * 512, 8 * 512), 7181);
    assert_eq!(cut(&[CHECK; 513], 8 * 513, 8 * 513), fault(9, 512));
    // 0 minutes with three benches are no fault 12, whatever the other jobs have.
    let three = Job { allowed: 7 << 61, ..CHECK };
    assert_eq!(cut(&[three, three], 16, 16), 41);
    assert_eq!(cut(&[three, JOB], 16, 16), 41);
    // 0 minutes do not hide a fault of the benches.
    assert_eq!(cut(&[CHECK, Job { allowed: 0, ..CHECK }], 16, 16), fault(11, 1));
    assert_eq!(cut(&[CHECK, Job { allowed: 1, ..CHECK }], 16, 16), fault(11, 1));
}

#[test]
fn tables_of_any_length() {
    let cut = |minutes, allowed| cut(&[JOB, JOB], minutes, allowed);
    assert_eq!(cut(16, 16), 41);
    assert_eq!(cut(9, 16), 41);
    assert_eq!(cut(8, 16), fault(10, 1));
    assert_eq!(cut(0, 1), fault(10, 0));
    assert_eq!(cut(16, 15), fault(11, 1));
    assert_eq!(cut(1, 0), fault(11, 0));
    assert_eq!(cut(9, 8), fault(11, 1));
    assert_eq!(cut(8, 8), 27);
    assert_eq!(cut(0, 0), 13);
}

#[test]
fn no_entry_of_minutes_is_fault_10() {
    for job in [JOB, CHECK] {
        for count in [1, 2, 3, 40, 512] {
            let jobs = vec![job; count];
            for with_minutes in 0..count {
                let expected = fault(10, with_minutes as u64);
                assert_eq!(cut(&jobs, 8 * with_minutes, 8 * count), expected);
                assert_eq!(cut(&jobs, 8 * with_minutes, 8 * count - 7), expected);
            }
        }
    }
    // The 513th job is fault 9, with minutes or without.
    assert_eq!(cut(&[CHECK; 513], 8 * 512, 8 * 513), fault(9, 512));
    assert_eq!(cut(&[CHECK; 513], 8 * 512 + 3, 8 * 513), fault(9, 512));
    assert_eq!(cut(&[CHECK; 513], 8 * 511, 8 * 513), fault(10, 511));
    // Per job 10 comes before 11, and an earlier job comes first.
    let no_bench = Job { allowed: 0, ..JOB };
    assert_eq!(cut(&[JOB, no_bench], 8, 16), fault(10, 1));
    assert_eq!(cut(&[no_bench, JOB], 8, 16), fault(11, 0));
}

#[test]
fn a_begun_entry_of_minutes() {
    for bytes in 1..8 {
        let at = 8 + bytes;
        // Without a byte above 0 it has no minutes, however many entries the other table has.
        assert_eq!(cut(&[JOB, CHECK], at, 16), fault(10, 1));
        assert_eq!(cut(&[JOB, CHECK], at, at), fault(10, 1));
        assert_eq!(cut(&[JOB, CHECK], at, 8), fault(10, 1));
        assert_eq!(cut(&[JOB, CHECK], at, 0), fault(11, 0));
        assert_eq!(cut(&[CHECK], bytes, 8), fault(10, 0));
        assert_eq!(cut(&[CHECK], bytes, 0), fault(10, 0));
        // With one it has minutes, and the bytes that it lacks are 0.
        let last_byte = Job { minutes: 1 << (8 * (bytes - 1)), ..JOB };
        let expected = if bytes <= 3 { 41 } else { fault(10, 1) };
        assert_eq!(cut(&[JOB, last_byte], at, 16), expected);
        let expected = if bytes <= 3 { fault(11, 1) } else { fault(10, 1) };
        assert_eq!(cut(&[JOB, last_byte], at, 8), expected);
    }
}

#[test]
fn a_begun_entry_of_benches_allowed() {
    let last_bench = Job { minutes: 0, allowed: 1 };
    let head = Head { benches: 64, ..HEAD };
    for bytes in 1..8 {
        let mut tables = Tables::new(head, &[last_bench]);
        tables.allowed.truncate(bytes);
        assert_eq!(written(&tables, 27).0, 27);
        tables.minutes.clear();
        assert_eq!(written(&tables, 27).0, fault(10, 0));
        assert_eq!(cut(&[CHECK], 8, bytes), fault(11, 0));
        assert_eq!(cut(&[CHECK], 0, bytes), fault(10, 0));
    }
}
