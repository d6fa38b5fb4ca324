//! Bookings of benches.

use super::day::MOST_MINUTES;
use crate::codec::sheet::{Booked, Head, NOTHING_BOOKED};
use crate::rng::Rng;

/// Nothing on half of the days; on the others minutes on one bench, on some or on all.
pub fn some(rng: &mut Rng, benches: u64, mut minutes: impl FnMut(&mut Rng) -> u64) -> Booked {
    let mut booked = NOTHING_BOOKED;
    if rng.one_in(2) {
        return booked;
    }
    let often = rng.pick(&[1, 2, 8, 64]);
    let sure = rng.below(benches as usize);
    for (bench, booked) in booked.iter_mut().take(benches as usize).enumerate() {
        if bench == sure || rng.one_in(often) {
            *booked = minutes(rng);
        }
    }
    booked
}

/// Bookings for the run: mostly far below T, on some days at the limits of a bench, on some above T
/// and on some above the bound. The target is at least 1.
pub fn for_run(rng: &mut Rng, head: Head) -> Booked {
    let Head { p, q, target, .. } = head;
    let bound = (5 * q + p) * target / (3 * q);
    let push = (5 * q - 2 * p) * target / (3 * q);
    let sort = rng.below(10);
    some(rng, head.benches, |rng| {
        let minutes = match sort {
            0 => rng.pick(&[push, push + 1, target, bound]),
            1 => rng.range(1, target),
            2 if rng.one_in(3) => rng.range(target + 1, bound.max(target + 1)),
            3 if rng.one_in(3) => bound + rng.pick(&[1, 1, 2, target]),
            _ => rng.range(1, target.div_ceil(3)),
        };
        minutes.clamp(1, MOST_MINUTES)
    })
}
