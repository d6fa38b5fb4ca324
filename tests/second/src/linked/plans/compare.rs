//! Lists of places for the comparison, one round.
//!
//! - `pairs`: all pairs of lists of tiny sheets.
//! - `elsewhere`: two plans, the same or with some jobs elsewhere.
//! - `faulty`: lists that are no assignment, and damaged sheets.

mod elsewhere;
mod faulty;
mod pairs;

use crate::check::{Check, Rival};
use crate::classes::{middle_day, tiny_day};
use crate::compare_kinds::name;
use second::codec::door::fault_number;
use second::codec::sheet::NOTHING_BOOKED;
use second::gen::bay::{alike::alike, days, turning};
use second::gen::day::{Day, MOST_TARGET};
use second::gen::lists::{self, assignment, table};
use second::planner::door::{PLAN, SAME};

pub use pairs::fixed;

pub fn round(check: &mut Check) {
    any_lists(check);
    two_plans(check);
    benches_alone(check);
    pairs::round(check);
    for turn in 0..DAYS {
        let day = day_with_choices(check, turn);
        let assigned = Assigned::new(check, day);
        elsewhere::all(check, &assigned);
        faulty::all(check, &assigned);
    }
    elsewhere::each_job(check);
    elsewhere::last_check_only(check);
    faulty::damaged(check);
}

/// Days of a round, a third of them full.
const DAYS: usize = 36;

fn day_with_choices(check: &mut Check, turn: usize) -> Day {
    let size = match turn % 3 {
        0 => days::tiny(&mut check.rng),
        1 => days::middle(&mut check.rng),
        _ => days::full(&mut check.rng),
    };
    alike(&mut check.rng, size)
}

/// A day with its sheet and an assignment of it.
struct Assigned {
    day: Day,
    sheet: Vec<u8>,
    list: Vec<u64>,
}

impl Assigned {
    fn new(check: &mut Check, day: Day) -> Assigned {
        let mut draft = day.draft();
        draft.scatter_bookings(&mut check.rng, 2);
        draft.sprinkle(&mut check.rng, 3);
        let list = assignment(&mut check.rng, &day);
        Assigned { day, sheet: draft.bytes(), list }
    }

    /// Compares the assignment with another list.
    fn compare(&self, check: &mut Check, other: &[u64]) -> u64 {
        check.compare(&self.sheet, [&table(&self.list), &table(other)])
    }

    /// As `compare`, where the word is known.
    fn expect(&self, check: &mut Check, other: &[u64], word: u64) {
        check.expect_comparison(&self.sheet, [&table(&self.list), &table(other)], word);
    }

    /// The first job, the last and any.
    fn some_jobs(&self, check: &mut Check) -> Vec<usize> {
        match self.list.len() {
            0 => Vec::new(),
            count => vec![0, count - 1, check.rng.below(count)],
        }
    }
}

/// Leaves a list as it is, or gives a job another bench, or none, or the list another length.
fn change(check: &mut Check, list: &mut Vec<u8>, benches: u64) {
    let rng = &mut check.rng;
    let entry = 8 * rng.below(list.len() / 8 + 1);
    match rng.below(8) {
        0 => list.truncate(list.len().saturating_sub(rng.pick(&[1, 7, 8, 9]))),
        1 => list.extend(vec![0; rng.pick(&[1, 8])]),
        2 if entry < list.len() => list[entry] = rng.range(0, benches) as u8,
        3 if entry < list.len() => list[entry + rng.below(8)] ^= 1 << rng.below(8),
        _ => {}
    }
}

fn any_lists(check: &mut Check) {
    check.class("comparison: any lists");
    for turn in 0..120 {
        let day = if turn % 4 == 0 { middle_day(check) } else { tiny_day(check) };
        let mut draft = day.draft();
        draft.sprinkle(&mut check.rng, 1);
        let mut lists = [0, 1].map(|_| table(&assignment(&mut check.rng, &day)));
        if check.rng.one_in(4) {
            lists[1] = lists[0].clone();
        }
        for list in &mut lists {
            change(check, list, day.head.benches);
        }
        check.compare(&draft.bytes(), [&lists[0], &lists[1]]);
    }
}

/// A plan with itself and with those of other targets.
fn two_plans(check: &mut Check) {
    check.class("comparison: two plans");
    for _ in 0..20 {
        let mut day = middle_day(check);
        let sheet = day.draft().bytes();
        let target = turning::turning_target(&mut check.planner, &day);
        let mut plans = Vec::new();
        for target in [target, target + 1, target + target / 4 + 2, 2 * target + 3] {
            day.head.target = target;
            let planned = check.plan_day(&day, Rival::Unknown);
            if planned.word == PLAN {
                plans.push(planned.places);
            }
        }
        let Some(first) = plans.first() else { continue };
        check.expect_comparison(&sheet, [&table(first), &table(first)], SAME);
        for other in &plans[1..] {
            let word = check.compare(&sheet, [&table(first), &table(other)]);
            check.expect("two plans are compared", fault_number(word) == 0, &sheet);
            let outcome = if word == SAME { "same" } else { "different" };
            check.tally.meet(&name(&format!("two plans, {outcome}")));
        }
    }
}

/// Two lists say the same of a sheet with other minutes, other bookings and another target.
fn benches_alone(check: &mut Check) {
    check.class("comparison: other minutes, bookings and target");
    for turn in 0..12 {
        let day = day_with_choices(check, turn % 2);
        let mut assigned = Assigned::new(check, day);
        let mut other = assigned.list.clone();
        if turn % 3 > 0 {
            other = assignment(&mut check.rng, &assigned.day);
        }
        if let (0, Some(place)) = (turn % 4, other.first_mut()) {
            *place = lists::no_bench(&mut check.rng, assigned.day.head.benches, *place);
        }
        let word = assigned.compare(check, &other);
        assigned.day.jobs.iter_mut().for_each(|job| job.minutes = 0);
        assigned.day.booked = NOTHING_BOOKED;
        assigned.day.head.target = check.rng.range(0, MOST_TARGET);
        assigned.sheet = assigned.day.draft().bytes();
        assigned.expect(check, &other, word);
        check.tally.meet(&name("other minutes, bookings and target"));
    }
}
