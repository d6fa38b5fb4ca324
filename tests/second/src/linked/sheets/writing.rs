//! Writing: random fields and tables, one round.

use crate::check::Check;
use second::codec::writer::sheet_bytes;
use second::gen::day::Day;
use second::gen::tables::{spoil, SPOILS};
use second::hex;

pub fn round(check: &mut Check) {
    valid(check);
    torn_tables(check);
    missing_minutes(check);
    long_bookings(check);
    job_counts(check);
    near_fault_12(check);
    one_fault(check);
    two_faults(check);
    outputs(check);
}

fn small_day(check: &mut Check, most: usize) -> Day {
    let count = check.rng.below(most + 1);
    Day::random(&mut check.rng, count)
}

fn valid(check: &mut Check) {
    check.class("writing: random fields that are taken");
    for turn in 0..200 {
        let day = small_day(check, if turn % 50 == 0 { 512 } else { 12 });
        let writing = check.write(&day.tables());
        let holds = writing.sheet == day.draft().bytes();
        check.expect("the sheet of taken fields", holds, || hex::print(&writing.sheet));
    }
}

/// Tables that end inside an entry or have unequal numbers of entries.
fn torn_tables(check: &mut Check) {
    check.class("writing: torn tables");
    for _ in 0..150 {
        let mut tables = small_day(check, 6).tables();
        tables.tear(&mut check.rng);
        check.write(&tables);
    }
}

/// Tables of minutes that end early: the first job without minutes is refused. That is the first
/// behind the whole entries, or the next if the begun entry has a byte above 0.
fn missing_minutes(check: &mut Check) {
    check.class("writing: minutes that end early");
    for turn in 0..150 {
        let count = 1 + check.rng.below(if turn == 0 { 512 } else { 8 });
        let mut tables = Day::random(&mut check.rng, count).tables();
        let end = check.rng.below(8 * count);
        tables.minutes.truncate(end);
        let is_begun = tables.minutes[end / 8 * 8..].iter().any(|&byte| byte > 0);
        let missing = end / 8 + usize::from(is_begun);
        let writing = check.write(&tables);
        if missing < count {
            let holds = writing.word == 10 << 32 | missing as u64;
            check.expect("no minutes, no sheet", holds, || format!("{tables:?}"));
        }
    }
}

/// Tables of bookings with entries past the 64th.
fn long_bookings(check: &mut Check) {
    check.class("writing: more bookings than benches");
    for turn in 0..60 {
        let mut day = small_day(check, 4);
        if turn % 4 == 0 {
            let number = check.rng.pick(&SPOILS);
            spoil(&mut check.rng, &mut day, number);
        }
        let mut tables = day.tables();
        tables.lengthen(&mut check.rng);
        check.write(&tables);
    }
}

fn job_counts(check: &mut Check) {
    check.class("writing: 511 jobs and more");
    let more = check.rng.range(515, 6000) as usize;
    for count in [511, 512, 513, 514, more] {
        let mut tables = Day::random(&mut check.rng, count).tables();
        check.write(&tables);
        // The last entry begun, or there in one table only.
        let last = 8 * (count - 1);
        tables.minutes.truncate(last + check.rng.below(8));
        check.write(&tables);
        let mut tables = Day::random(&mut check.rng, count).tables();
        tables.allowed.truncate(last + check.rng.below(8));
        check.write(&tables);
    }
}

fn near_fault_12(check: &mut Check) {
    check.class("writing: near fault 12");
    for _ in 0..150 {
        let tables = Day::near_fault_12(&mut check.rng).tables();
        check.write(&tables);
    }
}

fn one_fault(check: &mut Check) {
    check.class("writing: one fault");
    for number in SPOILS {
        for _ in 0..20 {
            let mut day = small_day(check, 6);
            spoil(&mut check.rng, &mut day, number);
            check.write(&day.tables());
        }
    }
}

fn two_faults(check: &mut Check) {
    check.class("writing: two faults or more");
    for first in SPOILS {
        for second in SPOILS {
            for more in 0..4 {
                let mut day = small_day(check, 6);
                spoil(&mut check.rng, &mut day, first);
                spoil(&mut check.rng, &mut day, second);
                let mut tables = day.tables();
                match more {
                    1 => tables.tear(&mut check.rng),
                    2 => {
                        spoil(&mut check.rng, &mut day, 12);
                        tables = day.tables();
                    }
                    _ => {}
                }
                // With no room at all, 13 comes last.
                if more == 3 {
                    check.write_into(&tables, 0);
                } else {
                    check.write(&tables);
                }
            }
        }
    }
}

fn outputs(check: &mut Check) {
    check.class("writing: outputs exact and too short");
    for _ in 0..30 {
        let day = small_day(check, 20);
        let tables = day.tables();
        let need = sheet_bytes(tables.bookings(), day.jobs.len());
        let some = check.rng.below(need);
        for room in [need, need - 1, some] {
            check.write_into(&tables, room);
        }
    }
}
