//! Random lists, one round.

use super::Checks;
use second::gen::bay::{days, placements};
use second::gen::check_only;
use second::gen::day::MOST_MINUTES;
use second::gen::lists::{self, assignment, table};

pub fn round(checks: &mut Checks) {
    all_lists(checks);
    any_lists(checks);
    at_the_bound(checks);
    no_bench(checks);
    lengths(checks);
    full(checks);
}

/// Every list of places below the number of benches, and of one that is no bench.
fn all_lists(checks: &mut Checks) {
    checks.class("all lists of a tiny sheet");
    for turn in 0..12 {
        let (benches, jobs) = (checks.rng.range(1, 3), checks.rng.below(5));
        let target = checks.rng.range(1, 20);
        let size = days::Size { benches, jobs, target };
        let mut day = days::any(&mut checks.rng, size);
        if turn % 3 == 0 {
            day = check_only::only(&mut checks.rng, benches, jobs);
        }
        let sheet = day.draft().bytes();
        for list in lists::all(day.jobs.len(), benches) {
            checks.list(&sheet, &table(&list));
        }
    }
}

/// Lists with each job on a bench that it allows, and the same with one job elsewhere.
fn any_lists(checks: &mut Checks) {
    checks.class("lists of small and middle sheets");
    for turn in 0..150 {
        let size = match turn % 3 {
            0 => days::middle(&mut checks.rng),
            _ => placements::small(&mut checks.rng),
        };
        let mut day = placements::any(&mut checks.rng, size);
        if turn % 5 == 0 {
            day.head.target -= checks.rng.range(0, day.head.target / 2);
        }
        let mut draft = day.draft();
        draft.sprinkle(&mut checks.rng, 1);
        let sheet = draft.bytes();
        let mut places = assignment(&mut checks.rng, &day);
        checks.list(&sheet, &table(&places));
        if !places.is_empty() {
            let job = checks.rng.below(places.len());
            places[job] = checks.rng.range(0, day.head.benches);
            checks.list(&sheet, &table(&places));
        }
    }
}

/// A bench is booked until its load is the most within the bound, then for one minute more. Where T
/// is a multiple of 3q, the load is the bound itself.
fn at_the_bound(checks: &mut Checks) {
    checks.class("lists at the bound");
    for turn in 0..100 {
        let size = placements::small(&mut checks.rng);
        let mut day = placements::any(&mut checks.rng, size);
        if turn % 2 == 0 {
            day.head.target += 3 * day.head.q - day.head.target % (3 * day.head.q);
        }
        let places = assignment(&mut checks.rng, &day);
        let (p, q, target) = (day.head.p, day.head.q, day.head.target);
        let most = (5 * q + p) * target / (3 * q);
        let bench = checks.rng.below(day.head.benches as usize);
        let here = day.jobs.iter().zip(&places).filter(|&(_, &place)| place == bench as u64);
        let jobs: u64 = here.map(|(job, _)| job.minutes).sum();
        for load in [most, most + 1] {
            day.booked[bench] = load.saturating_sub(jobs).min(MOST_MINUTES);
            checks.list(&day.draft().bytes(), &table(&places));
        }
    }
}

/// One place is no bench of the head, or no bench at all.
fn no_bench(checks: &mut Checks) {
    checks.class("lists with a place that is no bench");
    for _ in 0..40 {
        let size = days::middle(&mut checks.rng);
        let day = days::any(&mut checks.rng, size);
        let mut places = assignment(&mut checks.rng, &day);
        if places.is_empty() {
            continue;
        }
        let job = checks.rng.below(places.len());
        places[job] = lists::no_bench(&mut checks.rng, day.head.benches, places[job]);
        checks.list(&day.draft().bytes(), &table(&places));
    }
}

/// Lists with begun entries, with places missing, and with more places than jobs, also more than
/// any sheet has jobs.
fn lengths(checks: &mut Checks) {
    checks.class("lists of other lengths");
    for turn in 0..60 {
        let size = if turn == 0 { days::FULL } else { placements::small(&mut checks.rng) };
        let day = days::any(&mut checks.rng, size);
        let sheet = day.draft().bytes();
        let whole = table(&assignment(&mut checks.rng, &day));
        let mut list = whole.clone();
        match checks.rng.below(6) {
            0 => list.truncate(list.len().saturating_sub(checks.rng.pick(&[1, 4, 7]))),
            1 => list.truncate(list.len().saturating_sub(checks.rng.pick(&[8, 9, 16, 5000]))),
            2 => list.extend(vec![0; checks.rng.pick(&[1, 7, 8, 16])]),
            3 => list.resize(8 * checks.rng.pick(&[513, 514, 600, 4096, 8192]), 0),
            4 => list.resize(8 * 513 - checks.rng.pick(&[0, 1, 7]), 0),
            _ => list.clear(),
        }
        checks.list(&sheet, &list);
        checks.list(&sheet, &whole);
    }
    // Bench 0 as a begun entry of one byte.
    for _ in 0..10 {
        let size = placements::small(&mut checks.rng);
        let day = days::any(&mut checks.rng, size);
        let list = table(&assignment(&mut checks.rng, &day));
        let begun = list.len().saturating_sub(checks.rng.pick(&[1, 3, 7]));
        checks.list(&day.draft().bytes(), &list[..begun]);
    }
}

fn full(checks: &mut Checks) {
    checks.class("lists of full sheets");
    for turn in 0..10 {
        let size = days::full(&mut checks.rng);
        let mut day = days::any(&mut checks.rng, size);
        let places = assignment(&mut checks.rng, &day);
        if turn % 2 == 0 {
            day.head.target *= checks.rng.range(2, 6);
        }
        checks.list(&day.draft().bytes(), &table(&places));
    }
}
