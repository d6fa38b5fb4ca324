//! Days on which several benches have the largest load, or nearly: by jobs, by bookings or by both.
//! Half of the days have check-only jobs among the others.

use super::tight::load;
use crate::codec::sheet::{Head, MAX_JOBS, NOTHING_BOOKED};
use crate::gen::check_only;
use crate::gen::day::{share, Day};
use crate::rng::Rng;

/// A day on which no load is above T, so that nothing moves.
pub fn tied(rng: &mut Rng, benches: u64) -> Day {
    let (p, q) = share(rng);
    let largest = rng.range(2, 40);
    let head = Head { benches, p, q, target: largest + rng.range(0, 2) };
    let (mut booked, mut jobs) = (NOTHING_BOOKED, Vec::new());
    let often = rng.pick(&[2, 4, 16]);
    for bench in 0..benches {
        let own = match rng.below(often) {
            0 => largest,
            1 => largest - 1,
            _ => rng.range(0, largest),
        };
        let part = rng.range(0, own);
        let booking = rng.pick(&[0, 0, own, part]);
        booked[bench as usize] = booking;
        load(rng, head, &mut jobs, bench, own - booking);
    }
    rng.shuffle(&mut jobs);
    check_only::add(rng, head, &mut jobs);
    jobs.truncate(MAX_JOBS);
    Day { head, booked, jobs }
}
