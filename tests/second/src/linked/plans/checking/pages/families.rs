//! Pages of disjoint sets: of small, middle and full sheets, of sheets with a job above T, and ones
//! whose union is brought to the limit as a whole.

use super::laws;
use crate::checking::Checks;
use second::gen::bay::days::{self, Size};
use second::gen::bay::light::CHOICES;
use second::gen::bay::{families, placements};
use second::gen::check_only;
use second::gen::day::Day;
use second::planner::set::Set;

pub fn round(checks: &mut Checks) {
    small(checks);
    check_only_alone(checks);
    middle(checks);
    full(checks);
    unions(checks);
    crowded(checks);
    long(checks);
}

/// A day with disjoint sets that weigh about k × T each.
fn family(checks: &mut Checks, size: Size) -> (Day, Vec<Set>) {
    let mut day = placements::any(&mut checks.rng, size);
    let sets = families::disjoint(&mut checks.rng, day.head.benches);
    families::level(&mut checks.rng, &mut day, &sets);
    (day, sets)
}

fn small(checks: &mut Checks) {
    checks.class("pages of small sheets");
    for _ in 0..80 {
        let size = placements::small(&mut checks.rng);
        let (day, sets) = family(checks, size);
        let sheet = day.draft().bytes();
        laws::all(checks, &sheet, &sets);
        checks.page(&sheet, &[]);
    }
}

fn check_only_alone(checks: &mut Checks) {
    checks.class("pages of check-only jobs and bookings");
    for _ in 0..20 {
        let (benches, jobs) = (checks.rng.range(1, 5), checks.rng.below(6));
        let day = check_only::only(&mut checks.rng, benches, jobs);
        let sets = families::disjoint(&mut checks.rng, benches);
        laws::all(checks, &day.draft().bytes(), &sets);
    }
}

fn middle(checks: &mut Checks) {
    checks.class("pages of middle sheets, with foreign frames");
    for _ in 0..40 {
        let size = days::middle(&mut checks.rng);
        let (day, sets) = family(checks, size);
        let mut draft = day.draft();
        draft.scatter_bookings(&mut checks.rng, 2);
        draft.sprinkle(&mut checks.rng, 3);
        laws::all(checks, &draft.bytes(), &sets);
    }
}

fn full(checks: &mut Checks) {
    checks.class("pages of full sheets");
    for _ in 0..8 {
        let size = days::full(&mut checks.rng);
        let (day, sets) = family(checks, size);
        laws::all(checks, &day.draft().bytes(), &sets);
    }
    checks.class("pages of full sheets, each bench by itself");
    for _ in 0..5 {
        let size = days::full(&mut checks.rng);
        let choice = checks.rng.pick(&CHOICES);
        let mut day = placements::with(&mut checks.rng, size, None, choice);
        let sets = families::wide(&mut checks.rng, 64);
        families::level(&mut checks.rng, &mut day, &sets);
        laws::all(checks, &day.draft().bytes(), &sets);
    }
}

/// The union is brought to about k × T by light jobs between the sets, most of which do not block.
fn unions(checks: &mut Checks) {
    checks.class("pages whose union is brought to the limit");
    for _ in 0..40 {
        let size = placements::small(&mut checks.rng);
        let mut day = placements::any(&mut checks.rng, size);
        let sets = families::disjoint(&mut checks.rng, day.head.benches);
        if sets.is_empty() {
            continue;
        }
        let first = sets[checks.rng.below(sets.len())];
        placements::level(&mut checks.rng, &mut day, first);
        families::level(&mut checks.rng, &mut day, &[families::union(&sets)]);
        laws::all(checks, &day.draft().bytes(), &sets);
    }
}

/// No placement exists, and every page of disjoint sets passes.
fn crowded(checks: &mut Checks) {
    checks.class("pages of sheets without a placement");
    for _ in 0..10 {
        let size = days::middle(&mut checks.rng);
        let mut day = placements::any(&mut checks.rng, size);
        placements::crowd(&mut checks.rng, &mut day);
        let sets = families::disjoint(&mut checks.rng, day.head.benches);
        laws::all(checks, &day.draft().bytes(), &sets);
    }
}

fn long(checks: &mut Checks) {
    checks.class("pages of sheets with a job above T");
    for turn in 0..20 {
        let size = match turn {
            0 | 1 => days::full(&mut checks.rng),
            _ => placements::small(&mut checks.rng),
        };
        let (mut day, mut sets) = family(checks, size);
        day.head.target -= 1 + checks.rng.range(0, day.head.target - 1) / 2;
        let sheet = day.draft().bytes();
        laws::all(checks, &sheet, &[]);
        laws::all(checks, &sheet, &sets);
        families::spoil(&mut checks.rng, &mut sets, day.head.benches);
        laws::all(checks, &sheet, &sets);
    }
}
