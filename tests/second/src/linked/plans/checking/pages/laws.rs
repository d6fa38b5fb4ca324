//! What holds between the answer to a page and those to others: a page in another order, without a
//! set, with two of its sets joined; the union of a passed page; a page of one set, and that set.

use crate::checking::{page_table, Checks, Said};
use second::codec::door::fault_number;
use second::codec::fault::{SET, SHARED};
use second::gen::bay::families::union;
use second::planner::door::{NOT_PASSED, PASSED};
use second::planner::set::Set;

/// Checks a page, and others that follow from it.
pub fn all(checks: &mut Checks, sheet: &[u8], sets: &[Set]) -> Said {
    let said = checks.page(sheet, &page_table(sets));
    in_another_order(checks, sheet, sets, said);
    if said.word == PASSED && !sets.is_empty() {
        passed(checks, sheet, sets);
    }
    if let [set] = sets {
        of_one_set(checks, sheet, *set);
    }
    said
}

/// "the same in any order and grouping, so that the union of a passed page with at least one set is
/// blocking".
fn passed(checks: &mut Checks, sheet: &[u8], sets: &[Set]) {
    let union = union(sets);
    let is_passed = checks.set(sheet, union).word == PASSED;
    checks.expect_set("the union of a passed page passes", is_passed, sheet, union);
    let is_passed = checks.page(sheet, &page_table(&[union])).word == PASSED;
    checks.expect_set("the union passes as a page", is_passed, sheet, union);
    if sets.len() < 2 {
        return;
    }
    let mut fewer = sets.to_vec();
    let set = fewer.remove(checks.rng.below(sets.len()));
    let page = page_table(&fewer);
    let is_passed = checks.page(sheet, &page).word == PASSED;
    checks.expect_page("a passed page passes without a set", is_passed, sheet, &page);
    checks.tally.meet("page: a set left out, passed");
    let other = checks.rng.below(fewer.len());
    fewer[other] |= set;
    let page = page_table(&fewer);
    let is_passed = checks.page(sheet, &page).word == PASSED;
    checks.expect_page("a passed page passes with two sets joined", is_passed, sheet, &page);
    checks.tally.meet("page: two sets joined, passed");
}

/// The page in another order is passed, not passed, long or at fault as it was. If it is not passed,
/// its named set is not blocking in any order; if a job is long, the entry is the same.
fn in_another_order(checks: &mut Checks, sheet: &[u8], sets: &[Set], said: Said) {
    let mut other = sets.to_vec();
    checks.rng.shuffle(&mut other);
    if other == sets {
        return;
    }
    let page = page_table(&other);
    let again = checks.page(sheet, &page);
    let is_fault = |said: Said| matches!(fault_number(said.word), SET | SHARED);
    let holds = match said.word {
        _ if is_fault(said) => is_fault(again),
        NOT_PASSED => again.word == NOT_PASSED,
        _ => same(again, said),
    };
    checks.expect_page("the same in another order", holds, sheet, &page);
    if said.word == NOT_PASSED {
        let named = page_table(&[sets[said.entries[0] as usize]]);
        let holds = checks.page(sheet, &named).word == NOT_PASSED;
        checks.expect_page("the set that was named, by itself", holds, sheet, &named);
    }
    match said.word {
        PASSED => checks.tally.meet("page: in another order, passed"),
        NOT_PASSED if !same(again, said) => {
            checks.tally.meet("page: in another order, another number")
        }
        _ if is_fault(said) => checks.tally.meet("page: in another order, a fault"),
        _ => {}
    }
}

/// The same word and the same entry; bytes behind it are not the answer's.
fn same(one: Said, other: Said) -> bool {
    (one.word, one.entries[0]) == (other.word, other.entries[0])
}

/// A page of one set says what the check of that set says, but for the place of fault 17.
pub fn of_one_set(checks: &mut Checks, sheet: &[u8], set: Set) -> Said {
    let page = page_table(&[set]);
    let (of_page, of_set) = (checks.page(sheet, &page), checks.set(sheet, set));
    let holds = match fault_number(of_set.word) {
        SET => of_page.word == u64::from(SET) << 32,
        _ => same(of_page, of_set),
    };
    checks.expect_page("a page of one set, as the set", holds, sheet, &page);
    checks.tally.meet("page of one set, as the set");
    of_page
}
