//! Writing: cases that are the same in every run.

use crate::check::{Check, Writing};
use second::codec::sheet::{Head, Job, NOTHING_BOOKED};
use second::codec::writer::sheet_bytes;
use second::gen::day::bench_bit;
use second::gen::tables::Tables;
use second::hex;
use second::samples;

const HEAD: Head = Head { benches: 3, p: 4, q: 7, target: 9 };
const JOB: Job = Job { minutes: 5, allowed: 3 << 62 };

/// Numbers at the edges of the fields and of machine words.
const EDGES: [u64; 26] = [
    0,
    1,
    2,
    3,
    4,
    7,
    63,
    64,
    65,
    127,
    128,
    128 + 4,
    128 + 7,
    255,
    256,
    (1 << 20) - 1,
    1 << 20,
    (1 << 20) + 5,
    (1 << 30) - 1,
    1 << 30,
    (1 << 32) - 1,
    1 << 32,
    (1 << 32) + 5,
    1 << 63,
    (1 << 63) + 5,
    u64::MAX,
];

pub fn all(check: &mut Check) {
    example_12(check);
    shares(check);
    edges(check);
    table_lengths(check);
    output_lengths(check);
}

fn example_12(check: &mut Check) {
    check.class("writing: example 12");
    let head = "11 00 07 04 10 38 00 00 01 20";
    let job = "12 00 0B 00 00 5C 00 00 00 00 00 00 00 00";
    let sheet = hex::parse(&[head, job, job, job, "13 00 00"].join(" "));
    let tables = samples::example_5().tables();
    let writing = check.write(&tables);
    let expected = Writing { word: 55, sheet };
    check.expect("example 12", writing == expected, || hex::print(&expected.sheet));
    let short = check.write_into(&tables, 54);
    check.expect("one byte too few", short.word == 13 << 32, || hex::print(&expected.sheet));
}

fn shares(check: &mut Check) {
    check.class("writing: every share");
    for p in 0..130 {
        for q in 0..130 {
            check.write(&Tables::new(Head { p, q, ..HEAD }, &[JOB]));
        }
    }
}

/// Every pair of fields with every pair of edge numbers. The bookings are of bench 0, of bench 2
/// and of bench 3, which the head lacks.
fn edges(check: &mut Check) {
    check.class("writing: numbers at their edges");
    for one in 0..11 {
        for two in 0..one {
            for (value, other) in EDGES.iter().flat_map(|a| EDGES.iter().map(move |b| (a, b))) {
                let Head { benches, p, q, target } = HEAD;
                let Job { minutes, allowed } = JOB;
                let mut fields =
                    [benches, p, q, target, minutes, allowed, minutes, allowed, 0, 1, 0];
                fields[one] = *value;
                fields[two] = *other;
                let [benches, p, q, target, .., first, third, lacking] = fields;
                let job = |at: usize| Job { minutes: fields[at], allowed: fields[at + 1] };
                let mut booked = NOTHING_BOOKED;
                (booked[0], booked[2], booked[3]) = (first, third, lacking);
                let head = Head { benches, p, q, target };
                check.write(&Tables::booked(head, &booked, &[job(4), job(6)]));
            }
        }
    }
    let every = Head { benches: u64::MAX, p: u64::MAX, q: u64::MAX, target: u64::MAX };
    let job = Job { minutes: u64::MAX, allowed: u64::MAX };
    check.write(&Tables::booked(every, &[u64::MAX; 64], &vec![job; 600]));
}

/// Every pair of lengths of the two tables, up to three entries and a bit.
fn table_lengths(check: &mut Check) {
    check.class("writing: every table length");
    let one = Job { minutes: 0x0F_0F05, allowed: bench_bit(0) };
    let all_bytes = Job { minutes: 5, allowed: 0xE001_0203_0405_0607 };
    for jobs in [[one; 4], [one, one, all_bytes, one]] {
        for minutes in 0..28 {
            for allowed in 0..28 {
                let mut tables = Tables::new(Head { benches: 64, ..HEAD }, &jobs);
                tables.minutes.truncate(minutes);
                tables.allowed.truncate(allowed);
                check.write(&tables);
                // Where the number's upper bytes are the ones that it lacks.
                tables.allowed.fill(0xFF);
                check.write(&tables);
            }
        }
    }
}

fn output_lengths(check: &mut Check) {
    check.class("writing: every output length");
    for jobs in [0, 1, 2, 5] {
        let tables = Tables::new(HEAD, &vec![JOB; jobs]);
        for room in 0..sheet_bytes(0, jobs) + 20 {
            check.write_into(&tables, room);
        }
        let tables = Tables::booked(Head { benches: 64, ..HEAD }, &[1; 64], &vec![JOB; jobs]);
        for room in 0..sheet_bytes(64, jobs) + 20 {
            check.write_into(&tables, room);
        }
    }
    let tables = Tables::new(HEAD, &vec![JOB; 512]);
    for room in [0, 10, 7180, 7181, 7182, 65_536, 65_537] {
        check.write_into(&tables, room);
    }
    let tables = Tables::booked(Head { benches: 64, ..HEAD }, &[1; 64], &vec![JOB; 512]);
    for room in [0, 7181, 7628, 7629, 7630, 65_536] {
        check.write_into(&tables, room);
    }
}
