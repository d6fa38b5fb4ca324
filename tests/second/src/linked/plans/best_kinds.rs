//! What the tally counts of a sheet and its best target.

use second::codec::sheet::{Job, Sheet};
use second::planner::algorithm::{Answer, Planner};
use second::planner::best::{search, start, Best};

pub fn kinds(planner: &mut Planner, sheet: &Sheet, best: &Best) -> Vec<String> {
    let all = [&sheet_kinds(sheet)[..], &search_kinds(planner, sheet, best)].concat();
    all.into_iter().filter(|&(holds, _)| holds).map(|(_, kind)| format!("best: {kind}")).collect()
}

fn sheet_kinds(sheet: &Sheet) -> Vec<(bool, &'static str)> {
    let no_job = sheet.jobs().is_empty();
    let booked = sheet.booked().iter().any(|&minutes| minutes > 0);
    let full = sheet.jobs().len() == 512 && sheet.head().benches == 64;
    let is_check_only = |job: &Job| job.minutes == 0;
    let some = sheet.jobs().iter().any(is_check_only);
    let all = some && sheet.jobs().iter().all(is_check_only);
    vec![
        (no_job && !booked, "no job, no booking"),
        (no_job && booked, "bookings alone"),
        (all, "check-only jobs alone"),
        (some, "with check-only jobs"),
        (booked, "with bookings"),
        (full, "full sheet"),
        (full && booked, "full sheet with bookings"),
        (full && all, "full sheet with check-only jobs alone"),
    ]
}

fn search_kinds(planner: &mut Planner, sheet: &Sheet, best: &Best) -> Vec<(bool, &'static str)> {
    let (start, target) = (start(sheet), best.target);
    let mut last = start;
    // Those at the answer or above gave a plan, and those below were refused.
    search(start, |tried| {
        last = tried;
        (tried >= target).then_some(())
    });
    let of_start = planner.plan_at(sheet, start) == best.plan();
    let below = target.checked_sub(1).map(|below| planner.plan_at(sheet, below));
    vec![
        (target == 0, "target 0"),
        (target == start, "the start"),
        (target > 0 && target < start, "between 0 and the start"),
        (last < target, "the last run is refused"),
        (last == target, "the last run is its plan"),
        (matches!(below, Some(Answer::Long { .. })), "one below is long"),
        (matches!(below, Some(Answer::None { .. })), "one below is none"),
        (!of_start, "another plan than that of the start"),
        (best.moves > 0, "plan after moves"),
        (best.fullest > 0, "fullest bench above 0"),
        (best.runs >= 20, "20 runs or more"),
    ]
}
