//! Two plans: the same, and with one job, two, half of them or all elsewhere.

use super::Assigned;
use crate::check::Check;
use second::codec::sheet::{Job, MAX_JOBS};
use second::gen::bay::{alike::alike, days};
use second::gen::day::bench_bit;
use second::gen::lists::{assignment, exchanged, others, table, with};
use second::planner::door::{DIFFERENT, SAME};

pub fn all(check: &mut Check, assigned: &Assigned) {
    same(check, assigned);
    one_job(check, assigned);
    each_bench(check, assigned);
    check_only(check, assigned);
    two_jobs(check, assigned);
    many_jobs(check, assigned);
    any_other(check, assigned);
}

/// Puts each of these jobs by itself on another bench that it allows, if there is one.
fn expect_each_different(check: &mut Check, assigned: &Assigned, jobs: &[usize]) {
    for &job in jobs {
        let others = others(&assigned.day.jobs[job], assigned.list[job]);
        if !others.is_empty() {
            let place = check.rng.pick(&others);
            assigned.expect(check, &with(&assigned.list, job, place), DIFFERENT);
        }
    }
}

fn same(check: &mut Check, assigned: &Assigned) {
    check.class("comparison: the same list");
    for _ in 0..2 {
        assigned.expect(check, &assigned.list, SAME);
    }
}

fn one_job(check: &mut Check, assigned: &Assigned) {
    check.class("comparison: one job elsewhere");
    let jobs = assigned.some_jobs(check);
    expect_each_different(check, assigned, &jobs);
}

fn each_bench(check: &mut Check, assigned: &Assigned) {
    check.class("comparison: a job on each other bench");
    let jobs = assigned.some_jobs(check);
    let Some(&job) = jobs.last() else { return };
    for place in others(&assigned.day.jobs[job], assigned.list[job]) {
        assigned.expect(check, &with(&assigned.list, job, place), DIFFERENT);
    }
}

fn check_only(check: &mut Check, assigned: &Assigned) {
    check.class("comparison: a check-only job elsewhere");
    let jobs = &assigned.day.jobs;
    let mut zeros: Vec<usize> = (0..jobs.len()).filter(|&job| jobs[job].minutes == 0).collect();
    check.rng.shuffle(&mut zeros);
    zeros.truncate(4);
    expect_each_different(check, assigned, &zeros);
}

fn two_jobs(check: &mut Check, assigned: &Assigned) {
    check.class("comparison: two jobs of equal minutes exchanged");
    for _ in 0..2 {
        let Some([one, two]) = exchanged(&mut check.rng, &assigned.day, &assigned.list) else {
            return;
        };
        check.expect_comparison(&assigned.sheet, [&table(&one), &table(&two)], DIFFERENT);
    }
}

/// Half of the jobs, and all.
fn many_jobs(check: &mut Check, assigned: &Assigned) {
    check.class("comparison: many jobs elsewhere");
    let Assigned { day, sheet, list } = assigned;
    let mut jobs: Vec<usize> = (0..list.len()).collect();
    check.rng.shuffle(&mut jobs);
    for count in [list.len() / 2, list.len()] {
        let mut other = list.clone();
        for &job in &jobs[..count] {
            let others = others(&day.jobs[job], list[job]);
            other[job] = if others.is_empty() { list[job] } else { check.rng.pick(&others) };
        }
        let word = if other == *list { SAME } else { DIFFERENT };
        check.expect_comparison(sheet, [&table(list), &table(&other)], word);
    }
}

fn any_other(check: &mut Check, assigned: &Assigned) {
    check.class("comparison: any two assignments");
    let other = assignment(&mut check.rng, &assigned.day);
    let word = if other == assigned.list { SAME } else { DIFFERENT };
    assigned.expect(check, &other, word);
}

/// Each job of a full sheet by itself.
pub fn each_job(check: &mut Check) {
    check.class("comparison: each job of a full sheet elsewhere");
    let size = days::full(&mut check.rng);
    let day = alike(&mut check.rng, size);
    let assigned = Assigned::new(check, day);
    let jobs: Vec<usize> = (0..assigned.list.len()).collect();
    expect_each_different(check, &assigned, &jobs);
}

/// Job 511 by itself, a check-only one.
pub fn last_check_only(check: &mut Check) {
    check.class("comparison: job 511 elsewhere, 0 minutes");
    for _ in 0..8 {
        let size = days::Size { jobs: MAX_JOBS - 1, ..days::full(&mut check.rng) };
        let mut day = alike(&mut check.rng, size);
        let allowed = bench_bit(0) | bench_bit(check.rng.range(1, 63));
        day.jobs.push(Job { minutes: 0, allowed });
        let assigned = Assigned::new(check, day);
        expect_each_different(check, &assigned, &[MAX_JOBS - 1]);
    }
}
