//! What the tally counts of a list, a set or a page that was judged.
//!
//! - `list`, `set`, `page`: of a list, of a set, of a page.
//! - `parts`: the heavy jobs that hang together.

mod list;
mod page;
mod parts;
mod set;

pub use list::list;
pub use page::{page, PAGE_WANTED};
pub use set::set;

use second::codec::sheet::Sheet;

/// The faults that all papers meet; 10 is the writer's.
pub const FAULTS: [u32; 14] = [1, 2, 3, 4, 5, 6, 7, 8, 9, 11, 12, 13, 14, 15];

/// The kinds of lists and sets that are wanted.
pub const WANTED: [&str; 89] = [
    "list passed",
    "list passed: at the bound",
    "list passed: the most within the bound",
    "list passed: a bench above T",
    "list passed: a job above T",
    "list passed: fullest bench above 0",
    "list passed: with others as full",
    "list passed: fullest bench by its booking",
    "list passed: no job",
    "list passed: begun entry",
    "list passed: with bookings",
    "list passed: with check-only jobs",
    "list passed: T = 0",
    "list passed: full sheet",
    "list not passed: a bench that the job does not allow",
    "list not passed: a bench that the head lacks",
    "list not passed: 64 or more",
    "list not passed: the least above the bound",
    "list not passed: above the bound by a booking",
    "list not passed: a booking above the bound",
    "list not passed: full sheet",
    "list: fault 16",
    "list: fault 16, no place",
    "list: fault 16, 513 places or more",
    "set: fault 17, empty",
    "set: fault 17, a bench that the head lacks",
    "set: fault 17 before long",
    "set long",
    "set long: above job 0",
    "set long: full sheet",
    "set passed",
    "set passed: one above k × T",
    "set passed: a tree partly inside",
    "set passed: a cycle partly inside",
    "set passed: a cycle of two partly inside",
    "set passed: a heavy job with one bench, partly inside",
    "set passed: a bench inside without a heavy job",
    "set passed: no heavy job",
    "set passed: by a booking",
    "set passed: another placement weighs more",
    "set passed: a heavy job with a bench outside is inside",
    "set passed: with check-only jobs",
    "set passed: T = 0",
    "set passed: no placement",
    "set passed: no placement, by heavy jobs with one bench",
    "set passed: no placement, by jobs outside",
    "set passed: full sheet",
    "set not passed",
    "set not passed: k × T",
    "set not passed: one below k × T",
    "set not passed: a tree partly inside",
    "set not passed: a cycle partly inside",
    "set not passed: a cycle of two partly inside",
    "set not passed: a heavy job with one bench, partly inside",
    "set not passed: a bench inside without a heavy job",
    "set not passed: no heavy job",
    "set not passed: a light job with a bench outside",
    "set not passed: another placement weighs too much",
    "set not passed: a booking outside",
    "set not passed: with check-only jobs",
    "set not passed: T = 0",
    "set not passed: full sheet",
    "full sheet: a tree partly inside",
    "full sheet: a cycle partly inside",
    "full sheet: a cycle of two partly inside",
    "full sheet: a heavy job with one bench, partly inside",
    "full sheet: a bench inside without a heavy job",
    "full sheet: no placement",
    "full sheet: no placement, by jobs outside",
    "full sheet: a component of 20 benches or more",
    "own plan",
    "own plan after moves",
    "own plan: full sheet",
    "own plan: one job moved, passed",
    "own plan: one job moved, not passed",
    "own plan of a best target",
    "own none",
    "own none after moves",
    "own none of a crowded component",
    "own none: full sheet",
    "own none: all benches",
    "own none: without a bench, passed",
    "own none: without a bench, not passed",
    "own none: one more bench, passed",
    "own none: one more bench, not passed",
    "own long",
    "a passed set, and the planner has a plan",
    "a set of a sheet with a plan, not passed",
    "a list that our plan is not, passed",
];

fn that_hold<const N: usize>(all: [(bool, &'static str); N]) -> Vec<&'static str> {
    all.into_iter().filter(|&(holds, _)| holds).map(|(_, kind)| kind).collect()
}

pub fn is_full(sheet: &Sheet) -> bool {
    sheet.jobs().len() == 512 && sheet.head().benches == 64
}

fn has_check_only(sheet: &Sheet) -> bool {
    sheet.jobs().iter().any(|job| job.minutes == 0)
}
