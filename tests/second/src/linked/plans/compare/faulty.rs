//! Lists that are no assignment, and damaged sheets.

use super::Assigned;
use crate::check::Check;
use crate::classes::tiny_day;
use second::codec::door::word;
use second::codec::fault::{Fault, NO_ROOM};
use second::gen::damage::{damage, DAMAGES};
use second::gen::lists::{no_bench, not_allowed, others, table, with};

pub fn all(check: &mut Check, assigned: &Assigned) {
    benches_not_allowed(check, assigned);
    no_benches(check, assigned);
    lengths(check, assigned);
    begun(check, assigned);
}

/// The word of a list that is no assignment.
fn refused(list: usize) -> u64 {
    word(Err(Fault::new(NO_ROOM, list)))
}

/// A bench of the head that the job does not allow: in the second list and in both, at one job and
/// at two, beside a list of another length, and behind a job that is elsewhere.
fn benches_not_allowed(check: &mut Check, assigned: &Assigned) {
    check.class("comparison: a bench that the job does not allow");
    let Assigned { day, sheet, list } = assigned;
    let mut before: Option<Vec<u64>> = None;
    for job in assigned.some_jobs(check) {
        let benches = not_allowed(day, &day.jobs[job]);
        if benches.is_empty() {
            continue;
        }
        let wrong = with(list, job, check.rng.pick(&benches));
        assigned.expect(check, &wrong, refused(1));
        check.expect_comparison(sheet, [&table(&wrong), &table(&wrong)], refused(0));
        if let Some(before) = &before {
            check.expect_comparison(sheet, [&table(&wrong), &table(before)], refused(0));
        }
        let shorter = table(&list[1..]);
        check.expect_comparison(sheet, [&table(&wrong), &shorter], refused(0));
        if let (1.., Some(&other)) = (job, others(&day.jobs[0], list[0]).first()) {
            assigned.expect(check, &with(&wrong, 0, other), refused(1));
        }
        before = Some(wrong);
    }
}

fn no_benches(check: &mut Check, assigned: &Assigned) {
    check.class("comparison: places that are no bench");
    for job in assigned.some_jobs(check) {
        let benches = assigned.day.head.benches;
        let place = no_bench(&mut check.rng, benches, assigned.list[job]);
        assigned.compare(check, &with(&assigned.list, job, place));
    }
}

/// Too few places and too many, also many more than any sheet has jobs, behind the right ones.
fn lengths(check: &mut Check, assigned: &Assigned) {
    check.class("comparison: lists of other lengths");
    let (whole, count) = (table(&assigned.list), assigned.list.len());
    let less = check.rng.range(1, 600) as usize;
    let most = if check.rng.one_in(20) { 65_536 } else { 4096 };
    for less in [1, 8, less].into_iter().filter(|_| count > 0) {
        let shorter = &whole[..8 * count.saturating_sub(less)];
        check.expect_comparison(&assigned.sheet, [&whole, shorter], refused(1));
    }
    for more in [1, 256, 512, most] {
        let mut longer = assigned.list.clone();
        let last = longer.last().copied().unwrap_or(0);
        longer.resize(count + more, last);
        assigned.expect(check, &longer, refused(1));
    }
}

/// Lists that end inside an entry: the last job's, where that is the same bench, another and one
/// that it does not allow, or the entry of no job.
fn begun(check: &mut Check, assigned: &Assigned) {
    check.class("comparison: begun entries");
    let Assigned { day, sheet, list } = assigned;
    let whole = table(list);
    let more = [&whole[..], &[0][..]].concat();
    check.expect_comparison(sheet, [&whole, &more], refused(1));
    let Some(last) = list.len().checked_sub(1) else { return };
    let others = others(&day.jobs[last], list[last]);
    let lists = [vec![list[last]], others, not_allowed(day, &day.jobs[last])];
    for places in lists.into_iter().filter(|places| !places.is_empty()) {
        let mut other = table(&with(list, last, check.rng.pick(&places)));
        other.truncate(whole.len() - check.rng.range(1, 7) as usize);
        check.compare(sheet, [&whole, &other]);
    }
}

/// Sheets with a fault, and lists of which some are no assignment.
pub fn damaged(check: &mut Check) {
    check.class("comparison: damaged sheets");
    for number in DAMAGES {
        for _ in 0..8 {
            let day = tiny_day(check);
            let assigned = Assigned::new(check, day);
            let mut draft = assigned.day.draft();
            damage(&mut check.rng, &mut draft, number);
            compare_on(check, &assigned, &draft.bytes());
        }
    }
    check.class("comparison: about 65,536 bytes");
    for length in [65_535, 65_536, 65_537, 65_538, 66_000, 70_000, 131_072] {
        let day = tiny_day(check);
        let assigned = Assigned::new(check, day);
        let mut draft = assigned.day.draft();
        draft.pad_to(&mut check.rng, length);
        compare_on(check, &assigned, &draft.bytes());
    }
}

/// Compares an assignment with itself on another sheet, or with what is none.
fn compare_on(check: &mut Check, assigned: &Assigned, sheet: &[u8]) {
    let list = table(&assigned.list);
    let mut other = list.clone();
    if check.rng.one_in(2) {
        other.push(64);
    }
    check.compare(sheet, [&list, &other]);
}
