//! Checks that end in a fault, or nearly: damaged sheets, answer tables that are too short, and what
//! is no list, no set and no page of the sheet; one round.

use super::{page_table, Checks};
use second::codec::door::{fault_number, ENTRY_BYTES};
use second::codec::fault::SET;
use second::gen::bay::{families, placements};
use second::gen::damage::{damage, DAMAGES};
use second::gen::day::Day;
use second::gen::lists::{assignment, table};
use second::planner::door::{CHECK_PAGE_ENTRIES, CHECK_PLAN_ENTRIES, CHECK_SET_ENTRIES};
use second::planner::set::Set;

pub fn round(checks: &mut Checks) {
    damaged(checks);
    short_tables(checks);
    no_set(checks);
}

fn small_day(checks: &mut Checks) -> Day {
    let size = placements::small(&mut checks.rng);
    placements::any(&mut checks.rng, size)
}

/// What is checked of a day.
struct Papers {
    list: Vec<u8>,
    set: Set,
    page: Vec<u8>,
}

impl Papers {
    /// Of this day, now and then wrong ones.
    fn of(checks: &mut Checks, day: &Day) -> Papers {
        let mut list = table(&assignment(&mut checks.rng, day));
        let mut set = placements::any_set(&mut checks.rng, day.head.benches);
        let mut sets = families::disjoint(&mut checks.rng, day.head.benches);
        if checks.rng.one_in(3) {
            list.push(0);
            set = checks.rng.pick(&[Set::EMPTY, Set(1), Set(u64::MAX)]);
            families::spoil(&mut checks.rng, &mut sets, day.head.benches);
        }
        Papers { list, set, page: page_table(&sets) }
    }

    fn check(&self, checks: &mut Checks, sheet: &[u8]) {
        checks.list(sheet, &self.list);
        checks.set(sheet, self.set);
        checks.page(sheet, &self.page);
    }
}

fn damaged(checks: &mut Checks) {
    checks.class("damaged sheets");
    for number in DAMAGES {
        for _ in 0..12 {
            let day = small_day(checks);
            let papers = Papers::of(checks, &day);
            let mut draft = day.draft();
            draft.sprinkle(&mut checks.rng, 1);
            damage(&mut checks.rng, &mut draft, number);
            if checks.rng.one_in(3) {
                let number = checks.rng.pick(&DAMAGES);
                damage(&mut checks.rng, &mut draft, number);
            }
            papers.check(checks, &draft.bytes());
        }
    }
    checks.class("about 65,536 bytes");
    for length in [65_535, 65_536, 65_537, 65_538, 65_540, 66_000, 70_000, 100_000, 131_072] {
        let day = small_day(checks);
        let papers = Papers::of(checks, &day);
        let mut draft = day.draft();
        draft.pad_to(&mut checks.rng, length);
        papers.check(checks, &draft.bytes());
    }
}

/// The answer table is one byte, some bytes or all bytes too short; also for a damaged sheet, where
/// a job is long, and where list, set and page are wrong.
fn short_tables(checks: &mut Checks) {
    checks.class("short tables");
    for turn in 0..40 {
        let mut day = small_day(checks);
        let Papers { list, set, page } = Papers::of(checks, &day);
        if turn % 4 == 0 {
            day.head.target /= 2;
        }
        let mut draft = day.draft();
        if turn % 8 == 1 {
            let number = checks.rng.pick(&DAMAGES);
            damage(&mut checks.rng, &mut draft, number);
        }
        let less = checks.rng.pick(&[1, 4, 7, 8, 9, 1000]);
        let room = |entries: usize| (ENTRY_BYTES * entries).saturating_sub(less);
        checks.list_into(&draft.bytes(), &list, room(CHECK_PLAN_ENTRIES));
        checks.set_into(&draft.bytes(), set, room(CHECK_SET_ENTRIES));
        checks.page_into(&draft.bytes(), &page, room(CHECK_PAGE_ENTRIES));
    }
}

/// Empty sets, and sets with benches that the head lacks; also where a job is long and where there
/// is no placement.
fn no_set(checks: &mut Checks) {
    checks.class("sets that are empty or name other benches");
    for turn in 0..40 {
        let mut day = small_day(checks);
        if turn % 4 == 0 {
            day.head.target /= 2;
        }
        let sheet = day.draft().bytes();
        let is_long = day.jobs.iter().any(|job| job.minutes > day.head.target);
        let some = placements::any_set(&mut checks.rng, day.head.benches);
        let foreign = Set::one(checks.rng.range(day.head.benches, 63) as usize);
        let first = Set::one(day.head.benches as usize);
        let any = Set(checks.rng.word());
        for set in [Set::EMPTY, foreign, foreign | some, first | some, any, Set(1), Set(u64::MAX)] {
            let said = checks.set(&sheet, set);
            if is_long && fault_number(said.word) == SET {
                checks.tally.meet("set: fault 17 before long");
            }
        }
    }
}
