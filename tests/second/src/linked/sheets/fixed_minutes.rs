//! Minutes: jobs of 0 minutes, and tables of minutes that end before or inside an entry. Cases that
//! are the same in every run.

use crate::check::Check;
use crate::fixed_reading::{accepted, HEAD};
use second::codec::sheet::{Head, Job, NOTHING_BOOKED};
use second::codec::writer::sheet_bytes;
use second::gen::draft::Draft;
use second::gen::tables::Tables;
use second::hex;

const MOST: u64 = (1 << 20) - 1;
const JOB: Job = Job { minutes: 5, allowed: 3 << 62 };
const CHECK: Job = Job { minutes: 0, ..JOB };
const THREE: u64 = 7 << 61;

pub fn all(check: &mut Check) {
    read_zeros(check);
    written_zeros(check);
    shorter(check);
    begun(check);
    begun_benches(check);
    both_begun(check);
    job_counts(check);
    order(check);
}

fn fault(number: u64, place: usize) -> u64 {
    number << 32 | place as u64
}

fn length(jobs: usize) -> u64 {
    sheet_bytes(0, jobs) as u64
}

/// The tables of these jobs, cut off at so many bytes of minutes and of benches allowed, give this
/// word; a fault of them also where the output has no room.
fn expect(check: &mut Check, jobs: &[Job], bytes: [usize; 2], word: u64) {
    let mut tables = Tables::new(Head { benches: 64, ..HEAD }, jobs);
    tables.minutes.truncate(bytes[0]);
    tables.allowed.truncate(bytes[1]);
    let rooms = [sheet_bytes(0, tables.count()), 0];
    for room in rooms.into_iter().take(if word >> 32 == 0 { 1 } else { 2 }) {
        let found = check.write_into(&tables, room).word;
        let detail = || format!("{tables:?}\nword {found:x}, expected {word:x}");
        check.expect("the word for these tables", found == word, detail);
    }
}

/// Sheets with jobs of 0 minutes are taken, whatever benches they allow.
fn read_zeros(check: &mut Check) {
    check.class("reading: jobs of 0 minutes");
    let three = Head { benches: 3, ..HEAD };
    let zero = |allowed| Job { minutes: 0, allowed };
    let rows: [&[Job]; 6] = [
        &[CHECK],
        &[zero(1 << 63)],
        &[zero(THREE)],
        &[zero(THREE), CHECK, zero(1 << 61)],
        &[JOB, zero(THREE), JOB],
        &[CHECK, Job { minutes: MOST, ..JOB }, zero(THREE)],
    ];
    for target in [0, 9] {
        for jobs in rows {
            let head = Head { target, ..three };
            let sheet = Draft::new(head, jobs).bytes();
            let reading = check.read(&sheet);
            let expected = accepted(head, &NOTHING_BOOKED, jobs);
            check.expect("0 minutes are taken", reading == expected, || hex::print(&sheet));
        }
    }
    let full = vec![zero(THREE); 513];
    for (count, word) in [(511, 511), (512, 512), (513, fault(9, 10 + 14 * 512))] {
        let sheet = Draft::new(three, &full[..count]).bytes();
        let reading = check.read(&sheet);
        check.expect("512 jobs of 0 minutes", reading.word == word, || hex::print(&sheet));
    }
}

/// Whole entries of 0 are jobs of 0 minutes.
fn written_zeros(check: &mut Check) {
    check.class("writing: jobs of 0 minutes");
    let sheet = hex::parse(
        "11 00 07 04 10 38 00 00 01 20 12 00 0B 00 00 0C 00 00 00 00 00 00 00 00
         12 00 0B 00 00 5C 00 00 00 00 00 00 00 00 13 00 00",
    );
    let writing = check.write(&Tables::new(HEAD, &[CHECK, JOB]));
    check.expect("its bytes", writing.sheet == sheet, || hex::print(&writing.sheet));
    for count in [1, 2, 3, 40, 511, 512] {
        for allowed in [1 << 63, 3 << 62, THREE, u64::MAX] {
            let jobs = vec![Job { minutes: 0, allowed }; count];
            expect(check, &jobs, [8 * count; 2], length(count));
        }
    }
    // 0 minutes do not hide a fault of the benches, nor fault 12 of another job.
    expect(check, &[CHECK, Job { allowed: 0, ..CHECK }], [16; 2], fault(11, 1));
    let one_on_three = Job { minutes: 1, allowed: THREE };
    expect(check, &[Job { allowed: THREE, ..CHECK }, one_on_three], [16; 2], fault(12, 1));
    expect(check, &[one_on_three, Job { minutes: 2, ..JOB }, CHECK], [24; 2], length(3));
}

/// A table of minutes that has fewer entries than that of benches allowed, by one, by many or all.
fn shorter(check: &mut Check) {
    check.class("writing: fewer minutes than benches");
    for job in [JOB, CHECK] {
        for count in [1, 2, 3, 9, 40] {
            for with_minutes in 0..count {
                for allowed in [8 * count, 8 * count - 7, 8 * count - 1] {
                    let bytes = [8 * with_minutes, allowed];
                    expect(check, &vec![job; count], bytes, fault(10, with_minutes));
                }
            }
        }
    }
    // The other way round the job allows no bench.
    for with_benches in 0..4 {
        expect(check, &[CHECK; 4], [32, 8 * with_benches], fault(11, with_benches));
    }
    expect(check, &[CHECK; 4], [0, 0], length(0));
}

/// The last entry of minutes begun, with 1 to 7 bytes: all 0, or one of them above.
fn begun(check: &mut Check) {
    check.class("writing: a begun entry of minutes");
    for before in [0, 1, 3] {
        for bytes in 1..8 {
            let at = 8 * before + bytes;
            let with = |last| [vec![CHECK; before], vec![last], vec![JOB; 2]].concat();
            // The table of benches ends before this job, inside it, behind it, or later.
            for allowed in [8 * before, 8 * before + 1, 8 * before + 8, 8 * before + 24] {
                expect(check, &with(CHECK), [at, allowed], fault(10, before));
            }
            for byte in 0..bytes {
                let last = Job { minutes: 1 << (8 * byte), ..JOB };
                let fits = last.minutes <= MOST;
                let word = |with_benches| if fits { with_benches } else { fault(10, before) };
                expect(check, &with(last), [at, 8 * before + 8], word(length(before + 1)));
                expect(check, &with(last), [at, 8 * before], word(fault(11, before)));
                // A job behind the begun entry has no minutes.
                expect(check, &with(last), [at, 8 * before + 16], word(fault(10, before + 1)));
            }
        }
    }
}

/// The last entry of benches allowed begun, without minutes, with begun ones and with whole ones.
fn begun_benches(check: &mut Check) {
    check.class("writing: a begun entry of benches");
    for before in [0, 1, 3] {
        for bytes in 1..8 {
            let at = 8 * before + bytes;
            let with = |last| [vec![JOB; before], vec![last]].concat();
            // Its bytes are 0, or the first of them has the last bench of 64.
            for allowed in [3 << 62, 1] {
                let last = with(Job { minutes: 0, allowed });
                expect(check, &last, [8 * before, at], fault(10, before));
                let word = if allowed == 1 { length(before + 1) } else { fault(11, before) };
                expect(check, &last, [8 * before + 8, at], word);
            }
        }
    }
}

/// The last entry begun in both tables, with every pair of lengths.
fn both_begun(check: &mut Check) {
    check.class("writing: both entries begun");
    for minutes in 1..8 {
        for allowed in 1..8 {
            for (job, word) in [
                (Job { minutes: 0, allowed: 1 }, fault(10, 1)),
                (Job { minutes: 0, allowed: 0 }, fault(10, 1)),
                (Job { minutes: 7, allowed: 0 }, fault(11, 1)),
                (Job { minutes: 7, allowed: 1 }, length(2)),
            ] {
                expect(check, &[JOB, job], [8 + minutes, 8 + allowed], word);
            }
        }
    }
}

/// Tables that end at the 512th and 513th job: the 513th is fault 9, with minutes or without.
fn job_counts(check: &mut Check) {
    check.class("writing: minutes that end at 512 jobs");
    for job in [JOB, CHECK] {
        let jobs = vec![job; 514];
        let bytes = 8 * 512;
        for bench_bytes in [bytes, bytes - 7] {
            expect(check, &jobs, [bytes - 8, bench_bytes], fault(10, 511));
        }
        for allowed in [bytes + 1, bytes + 8, bytes + 16] {
            expect(check, &jobs, [bytes - 8, allowed], fault(10, 511));
            for minutes in [bytes, bytes + 1, bytes + 7, bytes + 8] {
                expect(check, &jobs, [minutes, allowed], fault(9, 512));
            }
        }
        expect(check, &jobs, [bytes, bytes], length(512));
        expect(check, &jobs, [bytes + 1, bytes], fault(9, 512));
    }
    for bytes in 1..8 {
        expect(check, &vec![CHECK; 512], [8 * 511 + bytes, 8 * 512], fault(10, 511));
    }
}

/// 10 for minutes that are not there, before and after the other faults.
fn order(check: &mut Check) {
    check.class("writing: missing minutes and other faults");
    let (wide, no_bench) = (Job { minutes: MOST + 1, ..JOB }, Job { allowed: 0, ..JOB });
    expect(check, &[JOB, no_bench], [8, 16], fault(10, 1));
    expect(check, &[no_bench, JOB], [8, 16], fault(11, 0));
    expect(check, &[wide, JOB], [8, 16], fault(10, 0));
    expect(check, &[JOB, CHECK, wide, JOB], [24, 32], fault(10, 2));
    // Fault 12 is tried when every job has its fields.
    let long = Job { minutes: 5, allowed: THREE };
    expect(check, &[long, JOB], [8, 16], fault(10, 1));
    expect(check, &[long, CHECK], [16, 16], fault(12, 0));
    let mut booked = NOTHING_BOOKED;
    booked[2] = 1;
    let heads = [
        (Head { benches: 0, ..HEAD }, fault(7, 0)),
        (Head { p: 7, ..HEAD }, fault(8, 0)),
        (HEAD, fault(14, 2)),
    ];
    for (head, word) in heads {
        for bytes in 0..8 {
            let minutes = vec![0; bytes];
            let tables = Tables { minutes, ..Tables::booked(head, &booked, &[JOB]) };
            let found = check.write(&tables).word;
            check.expect("head and bookings first", found == word, || format!("{tables:?}"));
        }
    }
}
