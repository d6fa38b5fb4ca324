//! What the comparison of two lists must say, from the sheet and the lists alone.

use super::{load_of, require};
use crate::codec::fault::{Fault, NO_ROOM};
use crate::codec::sheet::{Job, Sheet};
use crate::planner::algorithm::Comparison;
use crate::planner::set::Set;

/// What a comparison said.
pub type Said = Result<Comparison, Fault>;

/// Judges what was said of two lists of a sheet that was read, or refused with a fault.
pub fn judge_comparison(
    sheet: Result<&Sheet, Fault>,
    lists: [&[u64]; 2],
    said: Said,
) -> Result<(), &'static str> {
    let sheet = match sheet {
        // "After faults 1 to 12": those of the sheet come first, whatever the lists are.
        Err(fault) => return require(said == Err(fault), "not the fault of the sheet"),
        Ok(sheet) => sheet,
    };
    if let Some(place) = lists.iter().position(|list| !has_allowed_benches(sheet, list)) {
        let fault = Fault::new(NO_ROOM, place);
        return require(said == Err(fault), "not the fault of the first list that has one");
    }
    let is_elsewhere = |job: usize| lists[0][job] != lists[1][job];
    let some_elsewhere = (0..sheet.jobs().len()).any(is_elsewhere);
    match said {
        Err(_) => Err("a fault of two assignments"),
        Ok(Comparison::Different) => require(some_elsewhere, "every job is on the same bench"),
        Ok(Comparison::Same) => {
            require(!some_elsewhere, "a job is elsewhere")?;
            // "Such plans have equal loads, but not conversely."
            let [first, second] = lists.map(|list| move |bench| load_of(sheet, list, bench));
            let mut benches = 0..sheet.head().benches as usize;
            require(benches.all(|bench| first(bench) == second(bench)), "a load is another")
        }
    }
}

/// "each job one allowed bench".
fn has_allowed_benches(sheet: &Sheet, list: &[u64]) -> bool {
    let is_allowed =
        |(job, &place): (&Job, &u64)| place < 64 && Set(job.allowed).has(place as usize);
    list.len() == sheet.jobs().len() && sheet.jobs().iter().zip(list).all(is_allowed)
}

/// Judges what was said of the same lists in both orders: "the same" is said of two plans, and a
/// fault of the sheet or of one of the lists is there in both.
pub fn judge_exchanged(said: Said, exchanged: Said) -> Result<(), &'static str> {
    match (said, exchanged) {
        (Err(one), Err(two)) if one.number == NO_ROOM && two.number == NO_ROOM => {
            require(one.place.min(two.place) == 0, "no list with a fault is the first")
        }
        _ => require(said == exchanged, "something else of the exchanged lists"),
    }
}
