//! What the tally counts of a list.

use super::{has_check_only, is_full, that_hold};
use second::codec::door::ENTRY_BYTES;
use second::codec::sheet::{Head, Job, Sheet};
use second::judge::load_of;
use second::planner::algorithm::is_assignment;
use second::planner::checker::ListCheck;

/// Of a list that was not refused with a fault: its bytes, its places, and what was said of it.
pub fn list(sheet: &Sheet, bytes: &[u8], places: &[u64], check: ListCheck) -> Vec<&'static str> {
    match check {
        ListCheck::NotPassed => list_not_passed(sheet, places),
        ListCheck::Passed { largest, fullest } => {
            let Head { p, q, target, .. } = sheet.head();
            let bound = (5 * q + p) * target;
            let load = |bench| load_of(sheet, places, bench);
            let benches = 0..sheet.head().benches as usize;
            let booked = sheet.booked();
            let own = |bench: usize| load(bench) - booked[bench];
            let mut others = benches.clone().filter(|&bench| bench != fullest);
            that_hold([
                (true, "list passed"),
                (3 * q * largest == bound, "list passed: at the bound"),
                (3 * q * (largest + 1) > bound, "list passed: the most within the bound"),
                (largest > target, "list passed: a bench above T"),
                (sheet.jobs().iter().any(|job| job.minutes > target), "list passed: a job above T"),
                (fullest > 0, "list passed: fullest bench above 0"),
                (
                    others.clone().any(|bench| load(bench) == largest),
                    "list passed: with others as full",
                ),
                (
                    others.any(|bench| own(bench) > own(fullest)),
                    "list passed: fullest bench by its booking",
                ),
                (places.is_empty(), "list passed: no job"),
                (!bytes.len().is_multiple_of(ENTRY_BYTES), "list passed: begun entry"),
                (booked.iter().any(|&minutes| minutes > 0), "list passed: with bookings"),
                (has_check_only(sheet), "list passed: with check-only jobs"),
                (target == 0, "list passed: T = 0"),
                (is_full(sheet), "list passed: full sheet"),
            ])
        }
    }
}

fn list_not_passed(sheet: &Sheet, places: &[u64]) -> Vec<&'static str> {
    let Head { benches, p, q, target } = sheet.head();
    let bound = (5 * q + p) * target;
    let above = |load: u64| 3 * q * load > bound;
    if !is_assignment(sheet, places) {
        let other = |(job, &place): (&Job, &u64)| place < benches && !job.allows(place);
        return that_hold([
            (
                sheet.jobs().iter().zip(places).any(other),
                "list not passed: a bench that the job does not allow",
            ),
            (
                places.iter().any(|&place| (benches..64).contains(&place)),
                "list not passed: a bench that the head lacks",
            ),
            (places.iter().any(|&place| place >= 64), "list not passed: 64 or more"),
        ]);
    }
    let loads: Vec<u64> =
        (0..benches as usize).map(|bench| load_of(sheet, places, bench)).collect();
    let largest = *loads.iter().max().expect("a bench");
    let without = |bench: usize| loads[bench] - sheet.booked()[bench];
    let by_booking = |bench: usize| above(loads[bench]) && !above(without(bench));
    that_hold([
        (!above(largest - 1), "list not passed: the least above the bound"),
        (
            (0..loads.len()).all(|bench| !above(loads[bench]) || by_booking(bench)),
            "list not passed: above the bound by a booking",
        ),
        (
            sheet.booked().iter().any(|&minutes| above(minutes)),
            "list not passed: a booking above the bound",
        ),
        (is_full(sheet), "list not passed: full sheet"),
    ])
}
