//! Random sets, one round: all sets of small sheets, and some of larger ones.

use super::Checks;
use second::gen::bay::days;
use second::gen::bay::heavy::Shape;
use second::gen::bay::light::CHOICES;
use second::gen::bay::placements;
use second::gen::check_only;
use second::gen::day::Day;
use second::planner::door::PASSED;
use second::planner::set::Set;

pub fn round(checks: &mut Checks) {
    small(checks);
    check_only_alone(checks);
    middle(checks);
    full(checks);
    crowded_elsewhere(checks);
}

/// Every set of benches of the head, the empty one among them, and one with a bench more.
fn all_sets(checks: &mut Checks, day: &Day) {
    let sheet = day.draft().bytes();
    let benches = day.head.benches;
    for set in 0..1_u64 << benches {
        checks.set(&sheet, Set(set << (64 - benches)));
    }
    let foreign = Set::one(checks.rng.range(benches, 63) as usize);
    let others = placements::any_set(&mut checks.rng, benches);
    checks.set(&sheet, foreign | others);
}

/// Half of the days have a set that weighs about k × T, and some have a job above T.
fn small(checks: &mut Checks) {
    checks.class("all sets of a small sheet");
    for turn in 0..200 {
        let size = placements::small(&mut checks.rng);
        let mut day = placements::any(&mut checks.rng, size);
        if turn % 2 == 0 {
            let set = placements::any_set(&mut checks.rng, day.head.benches);
            placements::level(&mut checks.rng, &mut day, set);
        }
        if turn % 20 == 1 {
            day.head.target -= 1 + checks.rng.range(0, day.head.target - 1) / 2;
        }
        all_sets(checks, &day);
    }
}

fn check_only_alone(checks: &mut Checks) {
    checks.class("all sets of check-only jobs and bookings");
    for _ in 0..20 {
        let (benches, jobs) = (checks.rng.range(1, 5), checks.rng.below(6));
        let day = check_only::only(&mut checks.rng, benches, jobs);
        all_sets(checks, &day);
    }
}

/// Some sets, brought to about k × T one after the other.
fn some_sets(checks: &mut Checks, day: &Day, count: usize) {
    for _ in 0..count {
        let mut day = day.clone();
        let set = placements::any_set(&mut checks.rng, day.head.benches);
        checks.set(&day.draft().bytes(), set);
        placements::level(&mut checks.rng, &mut day, set);
        checks.set(&day.draft().bytes(), set);
        // One bench more or less.
        let mut other = set;
        let bench = checks.rng.below(day.head.benches as usize);
        other.put(bench, !set.has(bench));
        checks.set(&day.draft().bytes(), other);
    }
}

fn middle(checks: &mut Checks) {
    checks.class("sets of middle sheets, with foreign frames");
    for _ in 0..60 {
        let size = days::middle(&mut checks.rng);
        let day = placements::any(&mut checks.rng, size);
        let mut draft = day.draft();
        draft.scatter_bookings(&mut checks.rng, 2);
        draft.sprinkle(&mut checks.rng, 3);
        let set = placements::any_set(&mut checks.rng, day.head.benches);
        checks.set(&draft.bytes(), set);
        some_sets(checks, &day, 2);
    }
}

fn full(checks: &mut Checks) {
    let shapes = [
        ("sets of full sheets: trees", Shape::Forest),
        ("sets of full sheets: chains", Shape::Chain),
        ("sets of full sheets: cycles", Shape::Cycle),
        ("sets of full sheets: cycles with trees", Shape::Tailed),
        ("sets of full sheets: cycles of two", Shape::Parallel),
        ("sets of full sheets: pieces", Shape::Pieces),
        ("sets of full sheets: few heavy jobs", Shape::Alone),
        ("sets of full sheets: crowded components", Shape::Crowded),
    ];
    for (class, shape) in shapes {
        checks.class(class);
        let size = days::full(&mut checks.rng);
        let choice = checks.rng.pick(&CHOICES);
        let mut day = placements::with(&mut checks.rng, size, Some(shape), choice);
        some_sets(checks, &day, 4);
        checks.class("sets of full sheets: a job above T");
        day.head.target -= 1 + checks.rng.range(0, day.head.target / 2);
        some_sets(checks, &day, 1);
    }
}

/// Two heavy jobs have one bench, and the set has none of the benches near it.
fn crowded_elsewhere(checks: &mut Checks) {
    checks.class("sets of sheets with a crowded component elsewhere");
    for turn in 0..12 {
        let size = match turn % 2 {
            0 => days::full(&mut checks.rng),
            _ => days::middle(&mut checks.rng),
        };
        let choice = checks.rng.pick(&CHOICES);
        let mut day = placements::with(&mut checks.rng, size, Some(Shape::Pairs), choice);
        let elsewhere = placements::crowd(&mut checks.rng, &mut day);
        let set = elsewhere & placements::any_set(&mut checks.rng, day.head.benches);
        let sheet = day.draft().bytes();
        for set in [set, elsewhere] {
            let said = checks.set(&sheet, set);
            let holds = set.is_empty() || said.word == PASSED;
            checks.expect_set("no placement, so that the set passes", holds, &sheet, set);
        }
    }
}
