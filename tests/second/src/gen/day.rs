//! Random heads, bookings and jobs that are taken, and ones at the edges of the rules.

use super::draft::Draft;
use super::tables::Tables;
use super::{bookings, check_only};
use crate::codec::sheet::{Booked, Head, Job, Sheet, NOTHING_BOOKED};
use crate::rng::Rng;

pub const MOST_MINUTES: u64 = 1_048_575;
pub const MOST_TARGET: u64 = 1_073_741_823;

/// A head, bookings and jobs, before they are packed.
#[derive(Clone, Debug)]
pub struct Day {
    pub head: Head,
    pub booked: Booked,
    pub jobs: Vec<Job>,
}

/// The bit of a bench in a job's field.
pub fn bench_bit(bench: u64) -> u64 {
    1 << (63 - bench)
}

/// The lowest p that 7p < 4q does not refuse.
pub fn least_p(q: u64) -> u64 {
    (4 * q).div_ceil(7)
}

/// A share that is taken, often at an edge.
pub fn share(rng: &mut Rng) -> (u64, u64) {
    let q = rng.range(3, 127);
    match rng.below(6) {
        0 => (4, 7),
        1 => (126, 127),
        2 => (least_p(q), q),
        3 => (q - 1, q),
        _ => (rng.range(least_p(q), q - 1), q),
    }
}

/// A share that is refused and fits its fields.
pub fn bad_share(rng: &mut Rng) -> (u64, u64) {
    let q = rng.range(1, 127);
    match rng.below(5) {
        0 => (rng.range(0, 127), 0),
        1 => (q, q),
        2 => (rng.range(q, 127), q),
        3 => (least_p(q) - 1, q),
        _ => (rng.range(0, least_p(q) - 1), q),
    }
}

/// One or two of the benches.
pub fn few_benches(rng: &mut Rng, benches: u64) -> u64 {
    bench_bit(rng.range(0, benches - 1)) | bench_bit(rng.range(0, benches - 1))
}

/// Three or more of the benches, of which there are three or more.
pub fn many_benches(rng: &mut Rng, benches: u64) -> u64 {
    let all = u64::MAX << (64 - benches);
    let mut allowed = match rng.below(4) {
        0 => all,
        1 => rng.word() & all,
        2 => rng.word() & rng.word() & rng.word() & all,
        _ => 0,
    };
    while allowed.count_ones() < 3 {
        allowed |= bench_bit(rng.range(0, benches - 1));
    }
    allowed
}

/// A number from 1 to `most`, small ones as likely as large ones.
fn any_size(rng: &mut Rng, most: u64) -> u64 {
    let bits = 64 - most.leading_zeros() as usize;
    let top = most >> rng.below(bits);
    rng.range(1, top.max(1))
}

fn head(rng: &mut Rng, least_benches: u64) -> Head {
    let (p, q) = share(rng);
    let benches = match rng.below(4) {
        0 => least_benches,
        1 => rng.range(least_benches, 4),
        2 => 64,
        _ => rng.range(least_benches, 64),
    };
    let target = match rng.below(4) {
        0 => 0,
        1 => MOST_TARGET,
        _ => any_size(rng, MOST_TARGET),
    };
    Head { benches, p, q, target }
}

impl Day {
    /// A day without bookings.
    pub fn new(head: Head, jobs: Vec<Job>) -> Day {
        Day { head, booked: NOTHING_BOOKED, jobs }
    }

    /// What was read of a sheet.
    pub fn of(sheet: &Sheet) -> Day {
        Day { head: sheet.head(), booked: *sheet.booked(), jobs: sheet.jobs().to_vec() }
    }

    /// A day with this many jobs that is taken, on half of the calls with bookings and on half with
    /// check-only jobs: its longest job has one or two benches, and a job with three or more has at
    /// most p/q of that job's minutes.
    pub fn random(rng: &mut Rng, count: usize) -> Day {
        let head = head(rng, 1);
        let longest = if rng.one_in(6) { MOST_MINUTES } else { any_size(rng, MOST_MINUTES) };
        let limit = head.p * longest / head.q;
        let leader = rng.below(count.max(1));
        let jobs = (0..count).map(|job| {
            if job == leader {
                Job { minutes: longest, allowed: few_benches(rng, head.benches) }
            } else if head.benches < 3 || limit == 0 || rng.one_in(2) {
                Job { minutes: any_size(rng, longest), allowed: few_benches(rng, head.benches) }
            } else {
                Job { minutes: any_size(rng, limit), allowed: many_benches(rng, head.benches) }
            }
        });
        let mut jobs: Vec<Job> = jobs.collect();
        check_only::make(rng, &mut jobs);
        let booked = bookings::some(rng, head.benches, |rng| any_size(rng, MOST_MINUTES));
        Day { head, booked, jobs }
    }

    /// A day whose jobs with three or more benches have minutes about p × W / q: taken, or
    /// refused by fault 12. Often W is a multiple of q, so that q × minutes = p × W occurs. On half
    /// of the calls there are check-only jobs besides, which fault 12 never refuses.
    pub fn near_fault_12(rng: &mut Rng) -> Day {
        let head = head(rng, 3);
        let longest = match rng.below(4) {
            0 => MOST_MINUTES,
            1 => any_size(rng, MOST_MINUTES),
            _ => head.q * any_size(rng, MOST_MINUTES / head.q),
        };
        let edge = head.p * longest / head.q;
        let mut jobs = vec![Job { minutes: longest, allowed: few_benches(rng, head.benches) }];
        for _ in 0..rng.range(1, 4) {
            let minutes = if rng.one_in(3) { edge + 1 } else { edge - rng.range(0, 1).min(edge) };
            let allowed = many_benches(rng, head.benches);
            let place = rng.below(jobs.len() + 1);
            jobs.insert(place, Job { minutes, allowed });
        }
        check_only::add(rng, head, &mut jobs);
        // Bookings longer than the longest job do not count in W.
        let booked = bookings::some(rng, head.benches, |rng| any_size(rng, MOST_MINUTES));
        Day { head, booked, jobs }
    }

    pub fn draft(&self) -> Draft {
        Draft::booked(self.head, &self.booked, &self.jobs)
    }

    pub fn tables(&self) -> Tables {
        Tables::booked(self.head, &self.booked, &self.jobs)
    }
}
