//! The writer's fields and tables, and changes to them.

use super::day::{bad_share, bench_bit, Day};
use crate::codec::sheet::{Booked, Head, Job};
use crate::rng::Rng;

/// The fault numbers that fields can be spoilt to.
pub const SPOILS: [u32; 7] = [7, 8, 9, 10, 11, 12, 14];

/// What the writer is given: the head's fields and three tables of 8-byte numbers.
#[derive(Clone, Debug)]
pub struct Tables {
    pub head: Head,
    pub booked: Vec<u8>,
    pub minutes: Vec<u8>,
    pub allowed: Vec<u8>,
}

impl Tables {
    /// With an empty table of bookings.
    pub fn new(head: Head, jobs: &[Job]) -> Tables {
        Tables {
            head,
            booked: Vec::new(),
            minutes: jobs.iter().flat_map(|job| job.minutes.to_le_bytes()).collect(),
            allowed: jobs.iter().flat_map(|job| job.allowed.to_le_bytes()).collect(),
        }
    }

    pub fn booked(head: Head, booked: &Booked, jobs: &[Job]) -> Tables {
        let booked = booked.iter().flat_map(|minutes| minutes.to_le_bytes()).collect();
        Tables { booked, ..Tables::new(head, jobs) }
    }

    /// The number of bookings that are not 0.
    pub fn bookings(&self) -> usize {
        let is_zero = |entry: &[u8]| entry.iter().all(|&byte| byte == 0);
        self.booked.chunks(8).filter(|entry| !is_zero(entry)).count()
    }

    /// The number of jobs: that of the longer table, a begun entry counting as one.
    pub fn count(&self) -> usize {
        self.minutes.len().max(self.allowed.len()).div_ceil(8)
    }

    /// Cuts bytes off one table or all, so that they end inside an entry or have unequal numbers
    /// of entries.
    pub fn tear(&mut self, rng: &mut Rng) {
        let which = rng.below(4);
        let tables = [&mut self.minutes, &mut self.allowed, &mut self.booked];
        for (number, table) in tables.into_iter().enumerate() {
            if which == number || which == 3 {
                let least = if rng.one_in(3) { 0 } else { table.len().saturating_sub(9) };
                table.truncate(rng.range(least as u64, table.len() as u64) as usize);
            }
        }
    }

    /// Lengthens the table of bookings to past the 64th entry, inside an entry or not, with 0 or
    /// with a number that is not.
    pub fn lengthen(&mut self, rng: &mut Rng) {
        let more = rng.range(1, 3 * 8) as usize;
        self.booked.resize(8 * 64 + more, 0);
        if !rng.one_in(3) {
            let at = 8 * 64 + rng.below(more);
            self.booked[at] = rng.range(1, 255) as u8;
        }
    }
}

/// A number that does not fit in `width` bits, often one that would if its upper bits were lost.
pub fn too_wide(rng: &mut Rng, width: u32, fitting: u64) -> u64 {
    match rng.below(7) {
        0 => 1 << width,
        1 => u64::MAX,
        2 => 1 << rng.range(u64::from(width), 63) | fitting,
        3 => 1 << 32 | fitting,
        4 => 1 << 63 | fitting,
        5 => (1 << width) + rng.range(0, 3),
        _ => rng.range(1 << width, u64::MAX - 1),
    }
}

/// Spoils the fields, aiming at fault `number`, one of `SPOILS`. A day without the job that this
/// needs is left as it is.
pub fn spoil(rng: &mut Rng, day: &mut Day, number: u32) {
    match number {
        7 => spoil_benches(rng, &mut day.head),
        8 => spoil_share(rng, &mut day.head),
        9 => add_jobs(rng, day),
        14 => spoil_booking(rng, day),
        10..=12 if day.jobs.is_empty() => {}
        10 => {
            let job = rng.below(day.jobs.len());
            let minutes = day.jobs[job].minutes;
            day.jobs[job].minutes = too_wide(rng, 20, minutes);
        }
        11 => {
            let job = rng.below(day.jobs.len());
            let benches = day.head.benches;
            if (1..64).contains(&benches) && rng.one_in(2) {
                day.jobs[job].allowed |= bench_bit(rng.range(benches, 63));
            } else {
                day.jobs[job].allowed = 0;
            }
        }
        12 => {
            if day.head.benches < 3 {
                day.head.benches = 3;
            }
            let job = rng.below(day.jobs.len());
            let allowed = bench_bit(0) | bench_bit(1) | bench_bit(2);
            day.jobs[job] = Job { minutes: (1 << 20) - 1, allowed };
        }
        _ => unreachable!("no such fault"),
    }
}

fn spoil_benches(rng: &mut Rng, head: &mut Head) {
    match rng.below(5) {
        0 => head.benches = 0,
        1 => head.benches = 65,
        2 => head.benches = rng.range(65, 130),
        3 => head.benches = too_wide(rng, 7, head.benches),
        _ => head.target = too_wide(rng, 30, head.target),
    }
}

fn spoil_share(rng: &mut Rng, head: &mut Head) {
    match rng.below(4) {
        0 => head.p = too_wide(rng, 7, head.p),
        1 => head.q = too_wide(rng, 7, head.q),
        2 => {
            head.p = too_wide(rng, 7, head.p);
            head.q = too_wide(rng, 7, head.q);
        }
        _ => (head.p, head.q) = bad_share(rng),
    }
}

/// Too wide a booking, or one for a bench that the head lacks.
fn spoil_booking(rng: &mut Rng, day: &mut Day) {
    let benches = day.head.benches.min(64);
    if benches < 64 && rng.one_in(2) {
        let bench = if rng.one_in(2) { benches } else { rng.range(benches, 63) };
        day.booked[bench as usize] = if rng.one_in(4) { too_wide(rng, 20, 1) } else { 1 };
    } else {
        let bench = rng.range(0, benches.max(1) - 1) as usize;
        day.booked[bench] = too_wide(rng, 20, day.booked[bench]);
    }
}

/// Repeats jobs until there are 513, or some more.
fn add_jobs(rng: &mut Rng, day: &mut Day) {
    if day.jobs.is_empty() {
        day.jobs.push(Job { minutes: 1, allowed: bench_bit(0) });
    }
    let more = if rng.one_in(2) { 513 } else { rng.range(513, 700) as usize };
    while day.jobs.len() < more {
        day.jobs.push(day.jobs[rng.below(day.jobs.len())]);
    }
}
