//! Random accepted sheets for planning, one round.

use crate::check::{Check, Rival};
use second::gen::bay::days::{self, Size};
use second::gen::bay::heavy::Shape;
use second::gen::bay::light::{Choice, CHOICES};
use second::gen::bay::{tied, tight, turning};
use second::gen::day::Day;

pub fn round(check: &mut Check) {
    tiny(check);
    tiny_turning(check);
    middle(check);
    middle_turning(check);
    full(check);
    full_booked(check);
    full_turning(check);
    planted(check);
    shapes(check);
    tight(check);
    tied(check);
    everywhere(check);
    more_booked(check);
    long(check);
}

pub fn tiny_day(check: &mut Check) -> Day {
    let size = days::tiny(&mut check.rng);
    days::any(&mut check.rng, size)
}

pub fn middle_day(check: &mut Check) -> Day {
    let size = days::middle(&mut check.rng);
    days::any(&mut check.rng, size)
}

fn tiny(check: &mut Check) {
    check.class("tiny, judged by search");
    for _ in 0..1000 {
        let day = tiny_day(check);
        check.plan_day(&day, Rival::Searched);
    }
}

fn tiny_turning(check: &mut Check) {
    check.class("tiny, around the turning point, judged by search");
    for _ in 0..200 {
        let day = tiny_day(check);
        for day in turning::around(&mut check.planner, &day) {
            check.plan_day(&day, Rival::Searched);
        }
    }
}

fn middle(check: &mut Check) {
    check.class("middle, with foreign frames");
    for _ in 0..200 {
        let mut draft = middle_day(check).draft();
        draft.scatter_bookings(&mut check.rng, 2);
        draft.sprinkle(&mut check.rng, 3);
        check.plan(&draft.bytes(), Rival::Unknown);
    }
}

fn middle_turning(check: &mut Check) {
    check.class("middle, around the turning point");
    for _ in 0..60 {
        let day = middle_day(check);
        for day in turning::around(&mut check.planner, &day) {
            check.plan_day(&day, Rival::Unknown);
        }
    }
}

fn full(check: &mut Check) {
    check.class("full");
    for _ in 0..4 {
        let size = days::full(&mut check.rng);
        let day = days::any(&mut check.rng, size);
        check.plan_day(&day, Rival::Unknown);
    }
}

fn full_booked(check: &mut Check) {
    check.class("full, every bench booked");
    for _ in 0..4 {
        let size = days::full(&mut check.rng);
        let mut day = days::any(&mut check.rng, size);
        day.booked = [0; 64].map(|_| check.rng.range(1, size.target / 3));
        check.plan_day(&day, Rival::Unknown);
    }
}

fn full_turning(check: &mut Check) {
    check.class("full, around the turning point");
    let size = days::full(&mut check.rng);
    let day = days::any(&mut check.rng, size);
    for day in turning::around(&mut check.planner, &day) {
        check.plan_day(&day, Rival::Unknown);
    }
}

/// Sheets made from an assignment within T.
fn planted(check: &mut Check) {
    check.class("made from an assignment within T");
    for turn in 0..100 {
        let size = match turn {
            0 => days::full(&mut check.rng),
            _ => days::middle(&mut check.rng),
        };
        let day = days::planted(&mut check.rng, size);
        check.plan_day(&day, Rival::Planted);
    }
}

/// Parallel heavy jobs, and long chains and cycles of heavy jobs, at their turning points.
fn shapes(check: &mut Check) {
    let shapes = [
        ("parallel heavy jobs", Shape::Parallel),
        ("chains of heavy jobs", Shape::Chain),
        ("cycles of heavy jobs", Shape::Cycle),
        ("cycles with trees", Shape::Tailed),
        ("trees of heavy jobs", Shape::Forest),
        ("crowded components", Shape::Crowded),
    ];
    for (class, shape) in shapes {
        check.class(class);
        for turn in 0..10 {
            let size = shape_size(check, turn);
            let choice = check.rng.pick(&CHOICES);
            let day = days::booked_with(&mut check.rng, size, Some(shape), choice);
            check.plan_day(&day, Rival::Unknown);
            for day in turning::around(&mut check.planner, &day) {
                check.plan_day(&day, Rival::Unknown);
            }
        }
    }
}

fn shape_size(check: &mut Check, turn: usize) -> Size {
    let size = days::middle(&mut check.rng);
    match turn {
        0 => Size { benches: check.rng.range(30, 64), jobs: 200, ..size },
        _ => Size { jobs: size.jobs + size.benches as usize, ..size },
    }
}

/// Benches at the limits or one minute beside.
fn tight(check: &mut Check) {
    check.class("benches at the limits");
    for _ in 0..600 {
        let benches = check.rng.range(2, 8);
        let day = tight::tight(&mut check.rng, benches);
        check.plan_day(&day, Rival::Unknown);
    }
}

/// Several benches with the largest load, or nearly.
fn tied(check: &mut Check) {
    check.class("benches as full as the fullest");
    for turn in 0..100 {
        let benches = if turn == 0 { 64 } else { check.rng.range(2, 12) };
        let day = tied::tied(&mut check.rng, benches);
        check.plan_day(&day, Rival::Planted);
    }
}

fn everywhere(check: &mut Check) {
    check.class("light jobs allowed everywhere, turning point");
    for _ in 0..15 {
        let size = days::middle(&mut check.rng);
        let shape = if check.rng.one_in(2) { None } else { Some(Shape::Pieces) };
        let day = days::booked_with(&mut check.rng, size, shape, Choice::Everywhere);
        for day in turning::around(&mut check.planner, &day) {
            check.plan_day(&day, Rival::Unknown);
        }
    }
}

/// A day at its turning point, and one bench booked for ever more.
fn more_booked(check: &mut Check) {
    check.class("more and more booked, judged by search");
    for _ in 0..40 {
        let mut day = tiny_day(check);
        day.head.target = turning::turning_target(&mut check.planner, &day);
        let bench = check.rng.below(day.head.benches as usize);
        for _ in 0..6 {
            check.plan_day(&day, Rival::Searched);
            day.booked[bench] += check.rng.range(1, 1 + day.head.target / 2);
        }
    }
}

/// A target below the longest job or at it.
fn long(check: &mut Check) {
    check.class("targets at and below the longest jobs");
    for _ in 0..40 {
        let mut day = middle_day(check);
        let longest = day.jobs.iter().map(|job| job.minutes).max().unwrap_or(0);
        let less = check.rng.pick(&[0, 1, longest / 4, longest]).min(longest);
        day.head.target = longest - less;
        check.plan_day(&day, Rival::Unknown);
    }
}
