//! Searches that end in a fault, or nearly: random sheets that are damaged or of about 65,536
//! bytes, and tables that are too short; one round.

use crate::check::{Check, Rival};
use crate::classes::tiny_day;
use second::codec::door::ENTRY_BYTES;
use second::gen::damage::{damage, DAMAGES};
use second::planner::door::BEST_ENTRIES;

pub fn round(check: &mut Check) {
    damaged(check);
    short_tables(check);
}

fn damaged(check: &mut Check) {
    check.class("best: damaged");
    for number in DAMAGES {
        for _ in 0..8 {
            let mut draft = tiny_day(check).draft();
            draft.sprinkle(&mut check.rng, 1);
            damage(&mut check.rng, &mut draft, number);
            check.best(&draft.bytes(), Rival::Unknown);
        }
    }
    check.class("best: about 65,536 bytes");
    for length in [65_535, 65_536, 65_537, 65_538, 65_540, 66_000, 70_000, 100_000, 131_072] {
        let mut draft = tiny_day(check).draft();
        draft.pad_to(&mut check.rng, length);
        check.best(&draft.bytes(), Rival::Unknown);
    }
}

/// Each table one byte, some bytes or all bytes too short; also for a damaged sheet.
fn short_tables(check: &mut Check) {
    check.class("best: short tables");
    for turn in 0..30 {
        let day = tiny_day(check);
        let mut draft = day.draft();
        if turn % 8 == 1 {
            let number = check.rng.pick(&DAMAGES);
            damage(&mut check.rng, &mut draft, number);
        }
        let exact = [day.jobs.len(), day.head.benches as usize, BEST_ENTRIES];
        let mut rooms = exact.map(|entries| ENTRY_BYTES * entries);
        let short = check.rng.below(3);
        let less = check.rng.pick(&[1, 7, 8, 9, 16, 1000]);
        rooms[short] = rooms[short].saturating_sub(less);
        check.best_into(&draft.bytes(), rooms, Rival::Unknown);
    }
}
