//! Reading: random sheets, one round.

use crate::check::Check;
use second::codec::door::table_bytes;
use second::gen::damage::{damage, DAMAGES};
use second::gen::day::Day;
use second::gen::draft::Draft;
use second::hex;

pub fn round(check: &mut Check) {
    valid(check);
    cut(check);
    flipped(check);
    job_counts(check);
    sizes(check);
    near_fault_12(check);
    one_fault(check);
    two_faults(check);
    changed_bytes(check);
    noise(check);
    short_tables(check);
}

/// A sheet that is taken, with up to `most` jobs and a few foreign frames.
fn small_sheet(check: &mut Check, most: usize) -> Draft {
    let count = check.rng.below(most + 1);
    let mut sheet = Day::random(&mut check.rng, count).draft();
    sheet.scatter_bookings(&mut check.rng, 1);
    sheet.sprinkle(&mut check.rng, 2);
    sheet
}

fn valid(check: &mut Check) {
    check.class("reading: random sheets that are taken");
    for turn in 0..400 {
        let most = if turn % 50 == 0 { 512 } else { 12 };
        let count = check.rng.below(most + 1);
        let mut sheet = Day::random(&mut check.rng, count).draft();
        sheet.scatter_bookings(&mut check.rng, 4);
        sheet.sprinkle(&mut check.rng, most / 3);
        let bytes = sheet.bytes();
        let reading = check.read(&bytes);
        check.expect("a taken sheet", reading.word == count as u64, || hex::print(&bytes));
    }
}

fn cut(check: &mut Check) {
    check.class("reading: cut at every byte");
    for _ in 0..8 {
        let bytes = small_sheet(check, 3).bytes();
        for length in 0..=bytes.len() {
            check.read(&bytes[..length]);
        }
    }
}

fn flipped(check: &mut Check) {
    check.class("reading: every bit flipped");
    for _ in 0..4 {
        let bytes = small_sheet(check, 3).bytes();
        for bit in 0..8 * bytes.len() {
            let mut bytes = bytes.clone();
            bytes[bit / 8] ^= 0x80 >> (bit % 8);
            check.read(&bytes);
        }
    }
}

fn job_counts(check: &mut Check) {
    check.class("reading: 511 to 514 jobs");
    for count in 511..515 {
        let mut sheet = Day::random(&mut check.rng, count).draft();
        sheet.sprinkle(&mut check.rng, 20);
        check.read(&sheet.bytes());
    }
}

/// Sheets of about 65,536 bytes, whole, damaged, or cut.
fn sizes(check: &mut Check) {
    check.class("reading: about 65,536 bytes");
    for length in [65_535, 65_536, 65_537, 65_538] {
        for turn in 0..4 {
            let mut sheet = small_sheet(check, 20);
            sheet.pad_to(&mut check.rng, length);
            let mut bytes = sheet.bytes();
            match turn {
                0 => {}
                1 => bytes.truncate(length - 1),
                2 => bytes.push(0x20),
                _ => {
                    let number = check.rng.pick(&DAMAGES);
                    damage(&mut check.rng, &mut sheet, number);
                    bytes = sheet.bytes();
                }
            }
            check.read(&bytes);
        }
    }
    let length = check.rng.range(65_530, 66_000) as usize;
    let bytes = check.rng.bytes(length);
    check.read(&bytes);
}

fn near_fault_12(check: &mut Check) {
    check.class("reading: near fault 12");
    for _ in 0..300 {
        let mut sheet = Day::near_fault_12(&mut check.rng).draft();
        sheet.sprinkle(&mut check.rng, 1);
        check.read(&sheet.bytes());
    }
}

fn one_fault(check: &mut Check) {
    check.class("reading: one fault");
    for number in DAMAGES {
        for _ in 0..20 {
            let mut sheet = small_sheet(check, 8);
            damage(&mut check.rng, &mut sheet, number);
            check.read(&sheet.bytes());
        }
    }
}

fn two_faults(check: &mut Check) {
    check.class("reading: two faults or more");
    for first in DAMAGES {
        for second in DAMAGES {
            for more in 0..3 {
                let mut sheet = small_sheet(check, 6);
                damage(&mut check.rng, &mut sheet, first);
                damage(&mut check.rng, &mut sheet, second);
                if more == 2 {
                    let third = check.rng.pick(&DAMAGES);
                    damage(&mut check.rng, &mut sheet, third);
                }
                check.read(&sheet.bytes());
            }
        }
    }
}

/// Bytes changed, dropped, doubled, and frames dropped, doubled or exchanged.
fn changed_bytes(check: &mut Check) {
    check.class("reading: bytes and frames changed");
    for _ in 0..600 {
        let mut sheet = small_sheet(check, 5);
        let rng = &mut check.rng;
        let (one, two) = (rng.below(sheet.frames.len()), rng.below(sheet.frames.len()));
        match rng.below(6) {
            0 => sheet.frames.swap(one, two),
            1 => sheet.frames.insert(two, sheet.frames[one].clone()),
            2 => drop(sheet.frames.remove(one)),
            _ => {}
        }
        let mut bytes = sheet.bytes();
        for _ in 0..rng.below(4) {
            let at = rng.below(bytes.len().max(1));
            match rng.below(6) {
                _ if bytes.is_empty() => {}
                0 => drop(bytes.remove(at)),
                1 => bytes.insert(at, bytes[at]),
                2 => bytes[at] = rng.pick(&[0, 1, 0x10, 0x11, 0x12, 0x13, 0x14, 0x7F, 0x80, 0xFF]),
                _ => bytes[at] = rng.word() as u8,
            }
        }
        check.read(&bytes);
    }
}

/// Random bytes, after a good head or after nothing.
fn noise(check: &mut Check) {
    check.class("reading: noise");
    for _ in 0..100 {
        let mut bytes = match check.rng.below(2) {
            0 => Vec::new(),
            _ => Day::random(&mut check.rng, 0).draft().frames[0].clone(),
        };
        let length = check.rng.below(100);
        bytes.extend(check.rng.bytes(length));
        check.read(&bytes);
    }
}

fn short_tables(check: &mut Check) {
    check.class("reading: tables too short");
    for _ in 0..30 {
        let count = check.rng.below(20);
        let sheet = Day::random(&mut check.rng, count).draft().bytes();
        let need = table_bytes(count);
        let some = check.rng.below(need);
        for room in [need, need - 1, some] {
            check.read_into(&sheet, room);
        }
        // A fault of the sheet comes before the table's.
        let mut sheet = small_sheet(check, 4);
        let number = check.rng.pick(&DAMAGES);
        damage(&mut check.rng, &mut sheet, number);
        check.read_into(&sheet.bytes(), 0);
    }
}
