//! "Our own plans and sets for the same sheet and target always pass", one round; and lists and sets
//! that differ from ours a little.

use super::kinds::is_full;
use super::pages::of_one_set;
use super::Checks;
use crate::{best_library, library};
use second::codec::door::entry;
use second::gen::bay::{days, placements, tight, turning};
use second::gen::day::Day;
use second::gen::lists::{assignment, table};
use second::judge::lightest_placement;
use second::lent::empty::Empty;
use second::lent::tables::Tables;
use second::planner::door::{
    self, ANSWER_ENTRIES, BEST_ENTRIES, LONG, NONE, NOT_PASSED, PASSED, PLAN,
};
use second::planner::set::Set;

pub fn round(checks: &mut Checks) {
    checks.class("our answers to small sheets");
    for _ in 0..100 {
        let size = placements::small(&mut checks.rng);
        let day = placements::any(&mut checks.rng, size);
        answer_of(checks, &day);
    }
    checks.class("our answers around the turning point");
    for turn in 0..25 {
        let size = match turn % 2 {
            0 => days::middle(&mut checks.rng),
            _ => placements::small(&mut checks.rng),
        };
        let day = placements::any(&mut checks.rng, size);
        for day in turning::around(&mut checks.planner, &day) {
            answer_of(checks, &day);
        }
    }
    checks.class("our answers with benches at the limits");
    for _ in 0..60 {
        let benches = checks.rng.range(2, 8);
        let day = tight::tight(&mut checks.rng, benches);
        answer_of(checks, &day);
    }
    full(checks);
    best(checks);
}

fn full(checks: &mut Checks) {
    checks.class("our answers to full sheets");
    for turn in 0..9 {
        let size = days::full(&mut checks.rng);
        let mut day = placements::any(&mut checks.rng, size);
        if turn % 3 > 0 {
            let target = turning::turning_target(&mut checks.planner, &day);
            day.head.target = target + checks.rng.range(0, 2) - 1;
        }
        answer_of(checks, &day);
    }
}

/// What the library answers, or the second planner where it is not linked.
fn plan(checks: &mut Checks, sheet: &[u8], tables: &mut Tables<ANSWER_ENTRIES>) -> u64 {
    library::plan(sheet, tables.all(), Empty::Pointer).unwrap_or_else(|| {
        let [places, loads, answer] = tables.all();
        door::plan(&mut checks.planner, sheet, places, loads, answer)
    })
}

/// Plans a day, and hands on what the answer says.
pub fn answer_of(checks: &mut Checks, day: &Day) {
    let sheet = day.draft().bytes();
    let mut tables = Tables::new();
    let word = plan(checks, &sheet, &mut tables);
    let answer = tables.answer();
    match word {
        PLAN => {
            let places = places(&mut tables, day);
            own_plan(checks, &sheet, &places, answer);
            near_plan(checks, day, &sheet, &places);
        }
        NONE => own_none(checks, day, &sheet, answer),
        LONG => {
            let set = placements::any_set(&mut checks.rng, day.head.benches);
            let said = checks.set(&sheet, set);
            let holds = said.word == LONG && said.entries[0] == answer[0];
            checks.expect_set("the same long job", holds, &sheet, set);
            checks.tally.meet("own long");
        }
        _ => checks.expect_list("an answer", false, &sheet, &[]),
    }
}

fn places<const ENTRIES: usize>(tables: &mut Tables<ENTRIES>, day: &Day) -> Vec<u64> {
    let [places, ..] = tables.all();
    (0..day.jobs.len()).map(|job| entry(places, job)).collect()
}

/// A plan passes with its own largest load and fullest bench.
fn own_plan(checks: &mut Checks, sheet: &[u8], places: &[u64], answer: [u64; ANSWER_ENTRIES]) {
    let [largest, moves, fullest] = answer;
    let said = checks.list(sheet, &table(places));
    let holds = said.word == PASSED && said.entries == [largest, fullest];
    checks.expect_list("our plan passes with its numbers", holds, sheet, &table(places));
    checks.tally.meet("own plan");
    if moves > 0 {
        checks.tally.meet("own plan after moves");
    }
    if is_full(checks.codec.read(sheet).expect("accepted")) {
        checks.tally.meet("own plan: full sheet");
    }
}

/// The plan with one job on another bench, with one place more and with one less, another list, and
/// a set.
fn near_plan(checks: &mut Checks, day: &Day, sheet: &[u8], places: &[u64]) {
    let mut moved = places.to_vec();
    if !places.is_empty() {
        let job = checks.rng.below(places.len());
        let benches: Vec<usize> = Set(day.jobs[job].allowed).collect();
        moved[job] = checks.rng.pick(&benches) as u64;
        if moved != places {
            let passed = checks.list(sheet, &table(&moved)).word == PASSED;
            checks.tally.meet(match passed {
                true => "own plan: one job moved, passed",
                false => "own plan: one job moved, not passed",
            });
        }
        moved[job] = checks.rng.range(0, day.head.benches);
        checks.list(sheet, &table(&moved));
        checks.list(sheet, &table(&places[1..]));
    }
    let bench = checks.rng.range(0, day.head.benches - 1);
    checks.list(sheet, &table(&[places, &[bench]].concat()));
    let other = assignment(&mut checks.rng, day);
    if checks.list(sheet, &table(&other)).word == PASSED && other != places {
        checks.tally.meet("a list that our plan is not, passed");
    }
    let set = placements::any_set(&mut checks.rng, day.head.benches);
    let word = checks.set(sheet, set).word;
    checks.tally.meet(match word {
        PASSED => "a passed set, and the planner has a plan",
        _ => "a set of a sheet with a plan, not passed",
    });
}

/// A blocking set passes. Then without one of its benches, and with one more.
fn own_none(checks: &mut Checks, day: &Day, sheet: &[u8], answer: [u64; ANSWER_ENTRIES]) {
    let [benches, moves, _] = answer;
    let (set, all) = (Set(benches), Set::first(day.head.benches as usize));
    let said = of_one_set(checks, sheet, set);
    let holds = said.word == PASSED && said.entries[0] == 0;
    checks.expect_set("our set passes, also as a page", holds, sheet, set);
    checks.tally.meet("own none");
    checks.tally.meet("own none as a page");
    if moves > 0 {
        checks.tally.meet("own none after moves");
    }
    if set == all {
        checks.tally.meet("own none: all benches");
    }
    let read = checks.codec.read(sheet).expect("accepted");
    let crowded = lightest_placement(read, set).is_none();
    if is_full(read) {
        checks.tally.meet("own none: full sheet");
    }
    if crowded {
        checks.tally.meet("own none of a crowded component");
    }
    for bench in all {
        let mut other = set;
        other.put(bench, !set.has(bench));
        if other.is_empty() || day.head.benches > 8 && !checks.rng.one_in(8) {
            continue;
        }
        let passed = checks.set(sheet, other).word != NOT_PASSED;
        checks.tally.meet(match (set.has(bench), passed) {
            (true, true) => "own none: without a bench, passed",
            (true, false) => "own none: without a bench, not passed",
            (false, true) => "own none: one more bench, passed",
            (false, false) => "own none: one more bench, not passed",
        });
    }
}

/// The plan of a best target passes on the sheet with that target.
fn best(checks: &mut Checks) {
    checks.class("our plans of best targets");
    for _ in 0..15 {
        let size = days::middle(&mut checks.rng);
        let mut day = placements::any(&mut checks.rng, size);
        let sheet = day.draft().bytes();
        let mut tables: Tables<BEST_ENTRIES> = Tables::new();
        best_library::best(&sheet, tables.all(), Empty::Pointer).unwrap_or_else(|| {
            let [places, loads, answer] = tables.all();
            door::best(&mut checks.planner, &sheet, places, loads, answer)
        });
        let [target, largest, moves, fullest, _] = tables.answer();
        let places = places(&mut tables, &day);
        day.head.target = target;
        own_plan(checks, &day.draft().bytes(), &places, [largest, moves, fullest]);
        checks.tally.meet("own plan of a best target");
    }
}
