//! The writer and the tables, each fault on both sides of its edge.

use super::door::{entry, numbers, table_bytes, Codec, FRONT_ENTRIES};
use super::sheet::{Booked, Head, Job, NOTHING_BOOKED};
use super::writer::sheet_bytes;
use crate::gen::day::{bench_bit, Day};
use crate::gen::tables::Tables;
use crate::hex;
use crate::rng::Rng;
use crate::samples;

pub const HEAD: Head = Head { benches: 3, p: 4, q: 7, target: 9 };
pub const JOB: Job = Job { minutes: 5, allowed: 1 << 63 };

pub fn fault(number: u64, place: u64) -> u64 {
    number << 32 | place
}

/// The result word and the output, which had `room` bytes EE.
pub fn written(tables: &Tables, room: usize) -> (u64, Vec<u8>) {
    let mut out = vec![0xEE; room];
    let Tables { head, booked, minutes, allowed } = tables;
    let word = Codec::default().write(*head, booked, minutes, allowed, &mut out);
    (word, out)
}

fn word(head: Head, jobs: &[Job]) -> u64 {
    word_of(&Tables::new(head, jobs))
}

fn word_of(tables: &Tables) -> u64 {
    let (word, out) = written(tables, sheet_bytes(tables.bookings(), tables.count()));
    assert!(word >> 32 == 0 || out.iter().all(|&byte| byte == 0xEE));
    word
}

/// These minutes on these benches.
fn booked(bookings: &[(usize, u64)]) -> Booked {
    let mut booked = NOTHING_BOOKED;
    for &(bench, minutes) in bookings {
        booked[bench] = minutes;
    }
    booked
}

#[test]
fn example_12_and_its_room() {
    let text = "11 00 07 04 10 38 00 00 01 20
        12 00 0B 00 00 5C 00 00 00 00 00 00 00 00
        12 00 0B 00 00 5C 00 00 00 00 00 00 00 00
        12 00 0B 00 00 5C 00 00 00 00 00 00 00 00
        13 00 00";
    let sheet = hex::parse(text);
    let tables = samples::example_5().tables();
    assert_eq!(written(&tables, 55), (55, sheet.clone()));
    assert_eq!(written(&tables, 57), (55, [&sheet[..], &[0xEE; 2]].concat()));
    assert_eq!(written(&tables, 54), (fault(13, 0), vec![0xEE; 54]));
    assert_eq!(written(&tables, 0), (fault(13, 0), vec![]));
}

#[test]
fn faults_7_and_8_of_the_head() {
    assert_eq!(word(HEAD, &[]), 13);
    for benches in [0, 65, 66, 128 + 3, 1 << 32 | 3, u64::MAX] {
        assert_eq!(word(Head { benches, ..HEAD }, &[]), fault(7, 0));
    }
    assert_eq!(word(Head { target: (1 << 30) - 1, ..HEAD }, &[]), 13);
    for target in [1 << 30, 1 << 32, u64::MAX] {
        assert_eq!(word(Head { target, p: 0, ..HEAD }, &[]), fault(7, 0));
    }
    for (p, q) in [(128 + 4, 7), (4, 128 + 7), (u64::MAX, u64::MAX), (1 << 63, 1 << 63 | 1)] {
        assert_eq!(word(Head { p, q, ..HEAD }, &[]), fault(8, 0));
    }
    assert_eq!(word(Head { p: 4, q: 8, ..HEAD }, &[Job::default()]), fault(8, 0));
}

#[test]
fn faults_9_to_12_of_the_jobs() {
    let mut jobs = vec![JOB; 513];
    assert_eq!(word(HEAD, &jobs[..512]), 7181);
    assert_eq!(word(HEAD, &jobs), fault(9, 512));
    jobs[511].allowed = 0;
    assert_eq!(word(HEAD, &jobs), fault(11, 511));
    for minutes in [1 << 20, 1 << 32, 1 << 32 | 5, u64::MAX] {
        let bad = Job { minutes, allowed: 0 };
        assert_eq!(word(HEAD, &[JOB, bad]), fault(10, 1));
    }
    for allowed in [0, bench_bit(3), bench_bit(63), u64::MAX] {
        assert_eq!(word(HEAD, &[JOB, JOB, Job { allowed, ..JOB }]), fault(11, 2));
    }
    let three = Job { minutes: 4, allowed: 7 << 61 };
    assert_eq!(word(HEAD, &[Job { minutes: 7, ..JOB }, three]), sheet_bytes(0, 2) as u64);
    assert_eq!(word(HEAD, &[Job { minutes: 6, ..JOB }, three]), fault(12, 1));
    // 12 comes before 13.
    assert_eq!(written(&Tables::new(HEAD, &[three]), 0).0, fault(12, 0));
}

#[test]
fn bookings_stand_by_rising_bench() {
    let tables = Tables::booked(HEAD, &booked(&[(0, 3), (2, 1_048_575)]), &[]);
    let sheet = hex::parse(
        "11 00 07 06 10 38 00 00 01 20
        14 00 04 00 00 00 C0
        14 00 04 0B FF FF C0
        13 00 00",
    );
    assert_eq!(written(&tables, 27), (27, sheet));
    assert_eq!(written(&tables, 26), (fault(13, 0), vec![0xEE; 26]));
    let head = Head { benches: 64, ..HEAD };
    let largest = Tables::booked(head, &[1; 64], &vec![JOB; 512]);
    assert_eq!(written(&largest, 7629).0, 7629);
    assert_eq!(written(&largest, 7628).0, fault(13, 0));
}

#[test]
fn fault_14_of_a_booking() {
    let word = |head, bookings: &[(usize, u64)], jobs: &[Job]| {
        word_of(&Tables::booked(head, &booked(bookings), jobs))
    };
    for minutes in [1 << 20, 1 << 32 | 5, u64::MAX] {
        assert_eq!(word(HEAD, &[(0, 1), (1, minutes)], &[]), fault(14, 1));
    }
    assert_eq!(word(HEAD, &[(3, 1), (63, 1)], &[]), fault(14, 3));
    assert_eq!(word(HEAD, &[(3, 0), (2, 1)], &[]), 20);
    // The lowest bench first, for whichever reason.
    assert_eq!(word(HEAD, &[(1, 1 << 20), (5, 1)], &[]), fault(14, 1));
    // After 7 and 8, before 9 to 13.
    assert_eq!(word(Head { benches: 65, ..HEAD }, &[(1, 1 << 20)], &[]), fault(7, 0));
    assert_eq!(word(Head { p: 7, ..HEAD }, &[(1, 1 << 20)], &[]), fault(8, 0));
    let three = Job { minutes: 4, allowed: 7 << 61 };
    let no_jobs =
        [vec![JOB; 513], vec![Job::default()], vec![Job { allowed: 0, ..JOB }], vec![three]];
    for jobs in no_jobs {
        assert_eq!(word(HEAD, &[(63, 1)], &jobs), fault(14, 63));
    }
    assert_eq!(written(&Tables::booked(HEAD, &booked(&[(9, 1)]), &[]), 0).0, fault(14, 9));
}

#[test]
fn tables_of_bookings_of_any_length() {
    let with = |bytes: &[u8]| {
        let head = Head { benches: 64, ..HEAD };
        written(&Tables { booked: bytes.to_vec(), ..Tables::new(head, &[]) }, 8192).0
    };
    assert_eq!(with(&[5]), 20);
    assert_eq!(with(&[0, 0, 0, 0, 0, 0, 0, 0, 0]), 13);
    assert_eq!(with(&[0, 0, 16]), fault(14, 0));
    for more in [1, 7, 8, 9, 800] {
        let mut bytes = vec![0; 512 + more];
        bytes[0] = 1;
        assert_eq!(with(&bytes), 20);
        bytes[512 + more - 1] = 1;
        assert_eq!(with(&bytes), fault(14, 64 + (more as u64 - 1) / 8));
        bytes[8 * 63 + 7] = 1;
        assert_eq!(with(&bytes), fault(14, 63));
    }
}

#[test]
fn what_is_written_is_read() {
    let mut rng = Rng::new(7);
    let mut codec = Codec::default();
    for round in 0..300 {
        let count = if round % 30 == 0 { 512 } else { rng.below(9) };
        let day = Day::random(&mut rng, count);
        let tables = day.tables();
        let (word, sheet) = written(&tables, sheet_bytes(tables.bookings(), count));
        assert_eq!(word, sheet.len() as u64);
        assert_eq!(sheet, day.draft().bytes());
        let mut table = vec![0xEE; table_bytes(count) + 1];
        let room = table_bytes(count) - 1;
        assert_eq!(codec.read_contents(&sheet, &mut table[..room]), fault(13, 0));
        assert!(table.iter().all(|&byte| byte == 0xEE));
        assert_eq!(codec.read_contents(&sheet, &mut table), count as u64);
        let Head { benches, p, q, target } = day.head;
        assert_eq!([0, 1, 2, 3].map(|i| entry(&table, i)), [benches, p, q, target]);
        assert!(numbers(&table).skip(4).take(64).eq(day.booked));
        for (job, fields) in day.jobs.iter().enumerate() {
            let at = FRONT_ENTRIES + 2 * job;
            let read = [entry(&table, at), entry(&table, at + 1)];
            assert_eq!(read, [fields.minutes, fields.allowed]);
        }
        assert_eq!(table[table_bytes(count)], 0xEE);
    }
}
