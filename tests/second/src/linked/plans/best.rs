//! Random accepted sheets for the search, one round. A search runs about twenty targets, so that
//! there are fewer of them than of sheets that are planned once.

use crate::check::{Check, Rival};
use crate::classes::{middle_day, tiny_day};
use second::gen::bay::{days, tied, tight};
use second::gen::day::{Day, MOST_MINUTES, MOST_TARGET};
use second::gen::{bookings, check_only};

pub fn round(check: &mut Check) {
    tiny(check);
    tight(check);
    middle(check);
    any_fields(check);
    planted(check);
    nothing_to_do(check);
    only_check_only(check);
    full(check);
    other_targets(check);
    planned(check);
}

fn tiny(check: &mut Check) {
    check.class("best: tiny, judged by search");
    for _ in 0..600 {
        let day = tiny_day(check);
        check.best_of_day(&day, Rival::Searched);
    }
}

/// Refusal is not monotone on about one in fifty of these.
fn tight(check: &mut Check) {
    check.class("best: benches at the limits");
    for _ in 0..400 {
        let benches = check.rng.range(2, 8);
        let day = tight::tight(&mut check.rng, benches);
        check.best_of_day(&day, Rival::Unknown);
    }
}

fn middle(check: &mut Check) {
    check.class("best: middle, with foreign frames");
    for _ in 0..120 {
        let mut draft = middle_day(check).draft();
        draft.scatter_bookings(&mut check.rng, 2);
        draft.sprinkle(&mut check.rng, 3);
        check.best(&draft.bytes(), Rival::Unknown);
    }
}

/// Minutes of any size, so that the search starts high.
fn any_fields(check: &mut Check) {
    check.class("best: any fields");
    for _ in 0..60 {
        let count = check.rng.below(40);
        let day = Day::random(&mut check.rng, count);
        check.best_of_day(&day, Rival::Unknown);
    }
}

/// Sheets made from an assignment within their own T.
fn planted(check: &mut Check) {
    check.class("best: made from an assignment within T");
    for turn in 0..60 {
        let day = if turn % 2 == 0 {
            let size = days::middle(&mut check.rng);
            days::planted(&mut check.rng, size)
        } else {
            let benches = check.rng.range(2, 12);
            tied::tied(&mut check.rng, benches)
        };
        check.best_of_day(&day, Rival::Planted);
    }
}

fn nothing_to_do(check: &mut Check) {
    check.class("best: no job");
    for turn in 0..60 {
        let mut day = Day { jobs: Vec::new(), ..tiny_day(check) };
        if turn % 3 > 0 {
            let most = check.rng.pick(&[1, 40, MOST_MINUTES]);
            day.booked = bookings::some(&mut check.rng, day.head.benches, |rng| rng.range(0, most));
        }
        check.best_of_day(&day, Rival::Searched);
    }
}

fn only_check_only(check: &mut Check) {
    check.class("best: check-only jobs alone");
    for _ in 0..40 {
        let (benches, count) = (check.rng.range(1, 6), check.rng.range(1, 9));
        let day = check_only::only(&mut check.rng, benches, count as usize);
        check.best_of_day(&day, Rival::Searched);
    }
}

/// 512 jobs on 64 benches: any, with every bench booked, and check-only jobs alone.
fn full(check: &mut Check) {
    check.class("best: full");
    for _ in 0..6 {
        let size = days::full(&mut check.rng);
        let day = days::any(&mut check.rng, size);
        check.best_of_day(&day, Rival::Unknown);
    }
    check.class("best: full, every bench booked");
    for _ in 0..8 {
        let size = days::full(&mut check.rng);
        let mut day = days::any(&mut check.rng, size);
        day.booked = [0; 64].map(|_| check.rng.range(1, size.target / 3));
        check.best_of_day(&day, Rival::Unknown);
    }
    check.class("best: full, check-only jobs alone");
    for _ in 0..6 {
        let day = check_only::only(&mut check.rng, 64, 512);
        check.best_of_day(&day, Rival::Unknown);
    }
}

/// "Ignoring the sheet's own target".
fn other_targets(check: &mut Check) {
    check.class("best: another target of the sheet");
    for _ in 0..30 {
        let mut day = tiny_day(check);
        let before = check.best_of_day(&day, Rival::Unknown);
        let best = before.best().expect("the day is accepted");
        day.head.target = check.rng.pick(&[0, 1, best.target + 1, MOST_TARGET]);
        let sheet = day.draft().bytes();
        let after = check.best(&sheet, Rival::Unknown);
        check.expect("the same best target", after.best() == Ok(best), &sheet);
    }
}

/// The plan is that of the sheet with this target for its own; one below is refused.
fn planned(check: &mut Check) {
    check.class("best: planned with this target, and with one below");
    for _ in 0..40 {
        let mut day = middle_day(check);
        let searched = check.best_of_day(&day, Rival::Unknown);
        let best = searched.best().expect("the day is accepted");
        day.head.target = best.target;
        let sheet = day.draft().bytes();
        let planned = check.plan(&sheet, Rival::Unknown);
        check.expect("the plan of this target", planned.answer() == Ok(best.plan()), &sheet);
        let Some(below) = best.target.checked_sub(1) else { continue };
        day.head.target = below;
        let sheet = day.draft().bytes();
        let refused = check.plan(&sheet, Rival::Unknown);
        check.expect("one below is refused", refused.fullest().is_none(), &sheet);
    }
}
