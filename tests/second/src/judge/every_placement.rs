//! Blocking sets word for word: every placement of all heavy jobs is tried. For sheets with few
//! benches.

use crate::codec::sheet::{Job, Sheet};
use crate::planner::bay::is_heavy;
use crate::planner::set::Set;

/// "in every placement the heavy jobs placed inside it, plus all light jobs whose benches all lie
/// inside it, weigh more than k × T", with the booked minutes of its benches. The set is one of
/// benches of the head, not empty; no job is longer than T.
pub fn is_blocking(sheet: &Sheet, set: Set) -> bool {
    let head = sheet.head();
    let (heavy, light): (Vec<Job>, Vec<Job>) =
        sheet.jobs().iter().partition(|job| is_heavy(head, job));
    let inside = light.iter().filter(|job| (Set(job.allowed) - set).is_empty());
    let booked: u64 = set.map(|bench| sheet.booked()[bench]).sum();
    let rest = booked + inside.map(|job| job.minutes).sum::<u64>();
    let limit = set.len() as u64 * head.target;
    in_every_placement(&heavy, set, Set::EMPTY, rest, &|weight| weight > limit)
}

/// Whether each placement of the jobs on benches that are not taken leaves such a weight inside.
fn in_every_placement(
    jobs: &[Job],
    set: Set,
    taken: Set,
    weight: u64,
    holds: &impl Fn(u64) -> bool,
) -> bool {
    let Some((job, rest)) = jobs.split_first() else { return holds(weight) };
    (Set(job.allowed) - taken).all(|bench| {
        let more = if set.has(bench) { job.minutes } else { 0 };
        in_every_placement(rest, set, taken | Set::one(bench), weight + more, holds)
    })
}
