//! Random sheets, one round.

use crate::check::Check;
use crate::process::Feed;
use second::gen::bay::days;
use second::gen::damage::{damage, DAMAGES};
use second::gen::day::Day;

pub fn round(check: &mut Check) {
    tiny(check);
    middle(check);
    any_fields(check);
    damaged(check);
}

fn tiny_day(check: &mut Check) -> Day {
    let size = days::tiny(&mut check.rng);
    days::any(&mut check.rng, size)
}

fn tiny(check: &mut Check) {
    check.class("tiny");
    for _ in 0..20 {
        let day = tiny_day(check);
        check.sheet(&day.draft().bytes(), Feed::AtOnce);
    }
}

fn middle(check: &mut Check) {
    check.class("middle, with foreign frames");
    for _ in 0..10 {
        let size = days::middle(&mut check.rng);
        let mut draft = days::any(&mut check.rng, size).draft();
        draft.scatter_bookings(&mut check.rng, 2);
        draft.sprinkle(&mut check.rng, 3);
        check.sheet(&draft.bytes(), Feed::AtOnce);
    }
}

fn any_fields(check: &mut Check) {
    check.class("any fields");
    for _ in 0..10 {
        let count = check.rng.below(40);
        let day = Day::random(&mut check.rng, count);
        check.sheet(&day.draft().bytes(), Feed::AtOnce);
    }
}

/// Each damage once.
fn damaged(check: &mut Check) {
    check.class("damaged");
    for number in DAMAGES {
        let mut draft = tiny_day(check).draft();
        damage(&mut check.rng, &mut draft, number);
        check.sheet(&draft.bytes(), Feed::AtOnce);
    }
}
