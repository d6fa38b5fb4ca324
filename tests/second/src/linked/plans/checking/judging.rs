//! What the second planner said of a list, a set or a page goes before the judge, and its kinds are
//! counted.

use super::{kinds, Checks, Paper, Said};
use second::codec::door::{fault_number, numbers, ENTRY_BYTES};
use second::codec::fault::Fault;
use second::codec::sheet::Sheet;
use second::judge;
use second::judge::checks::{judge_list, judge_page, judge_set};
use second::planner::checker::{ListCheck, PageCheck, SetCheck};
use second::planner::door::{LONG, PASSED};
use second::planner::least::{least_placement, least_weight};
use second::planner::set::Set;

/// The most steps of a search for an assignment within T.
const STEPS: u64 = 2_000;

impl Checks {
    pub fn judge_list(&mut self, sheet: &[u8], list: &[u8], said: Said) {
        let read = self.codec.read(sheet).expect("an answer is for an accepted sheet");
        let places: Vec<u64> = numbers(list).collect();
        let [largest, fullest] = said.entries;
        let check = match said.word {
            PASSED => ListCheck::Passed { largest, fullest: fullest as usize },
            _ => ListCheck::NotPassed,
        };
        let judged = judge_list(read, &places, check);
        let kinds = kinds::list(read, list, &places, check);
        self.meet_all(sheet, Paper::List(list), judged, kinds);
    }

    /// The least weight is compared as a number, and a passed set leaves the rival nothing.
    pub fn judge_set(&mut self, sheet: &[u8], set: Set, said: Said) {
        let read = self.codec.read(sheet).expect("an answer is for an accepted sheet");
        let check = match said.word {
            PASSED => SetCheck::Passed,
            LONG => SetCheck::Long { job: said.entries[0] as usize },
            _ => SetCheck::NotPassed,
        };
        let mut judged = judge_set(read, set, check);
        if check == SetCheck::Passed && has_rival(read) {
            judged = Err("an assignment within T, and a passed set");
        }
        // Where a job is long, a heavy one may have three benches, and there are no placements.
        if !matches!(check, SetCheck::Long { .. }) {
            if least_placement(read, set) != judge::lightest_placement(read, set) {
                judged = Err("another least weight of the heavy jobs");
            }
            if least_weight(read, set) != judge::weight_of_lightest(read, set) {
                judged = Err("another least weight");
            }
        }
        let kinds = kinds::set(read, set, check);
        self.meet_all(sheet, Paper::Set(set), judged, kinds);
    }

    /// A passed page of at least one set leaves the rival nothing. An empty one says nothing of it.
    pub fn judge_page(&mut self, sheet: &[u8], page: &[u8], said: Said) {
        let read =
            self.codec.read(sheet).expect("the page's fault or an answer, so it is accepted");
        let sets: Vec<Set> = numbers(page).map(Set).collect();
        let (place, entry) = (said.word as u32 as usize, said.entries[0] as usize);
        let check = match (fault_number(said.word), said.word) {
            (0, PASSED) => Ok(PageCheck::Passed),
            (0, LONG) => Ok(PageCheck::Long { job: entry }),
            (0, _) => Ok(PageCheck::NotPassed { set: entry }),
            (number, _) => Err(Fault::new(number, place)),
        };
        let mut judged = judge_page(read, &sets, check);
        let mut kinds = match judged {
            Ok(()) => kinds::page(read, &sets, check),
            Err(_) => Vec::new(),
        };
        if !page.len().is_multiple_of(ENTRY_BYTES) {
            match check {
                Ok(_) => kinds.push("page: a begun set, judged"),
                Err(_) if place + 1 < sets.len() => {}
                Err(_) => kinds.push("page: a begun set with a fault"),
            }
        }
        if check == Ok(PageCheck::Passed) && has_rival(read) {
            match sets.is_empty() {
                true => kinds.push("page passed: empty, an assignment within T"),
                false => judged = Err("an assignment within T, and a passed page"),
            }
        }
        self.meet_all(sheet, Paper::Page(page), judged, kinds);
    }

    fn meet_all(
        &mut self,
        sheet: &[u8],
        paper: Paper,
        judged: Result<(), &'static str>,
        kinds: Vec<&'static str>,
    ) {
        if let Err(what) = judged {
            self.fail(
                &format!("the judge refuses the second planner's answer: {what}"),
                sheet,
                paper,
            );
        }
        for kind in kinds {
            self.tally.meet(kind);
        }
    }
}

/// Some assignment of a small sheet is found that keeps every bench within T.
fn has_rival(sheet: &Sheet) -> bool {
    let is_small = sheet.head().benches <= 6 && sheet.jobs().len() <= 16;
    is_small && judge::has_rival(sheet, STEPS) == Some(true)
}
