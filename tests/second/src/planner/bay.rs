//! What a sheet and its target are for the run.

use super::rocks::{Components, Rock, Rocks};
use super::set::Set;
use crate::codec::sheet::{Head, Job, Sheet, MAX_JOBS};

/// The limits of document 01, each already a product with T.
#[derive(Clone, Copy, Default)]
pub struct Limits {
    /// What a weight is multiplied by: 3q.
    pub scale: u64,
    /// "3q × load > (5q + p) × T" is overloaded.
    pub bound: u64,
    /// PUSH: "its bound 3q × load ≤ (5q − 2p) × T".
    pub push: u64,
    /// "Rule 2 there uses edges with 3q × minutes < (2q + p) × T."
    pub rule_2: u64,
}

impl Limits {
    pub fn of(head: Head) -> Limits {
        let Head { p, q, target, .. } = head;
        Limits {
            scale: 3 * q,
            bound: (5 * q + p) * target,
            push: (5 * q - 2 * p) * target,
            rule_2: (2 * q + p) * target,
        }
    }
}

/// "a job is heavy if q × minutes > p × T, otherwise light". Jobs of 0 minutes "are light always,
/// also at T = 0".
pub fn is_heavy(head: Head, job: &Job) -> bool {
    head.q * job.minutes > head.p * head.target
}

/// A light job with two or more benches.
#[derive(Clone, Copy, Default)]
pub struct Pebble {
    pub job: usize,
    /// 3q × minutes.
    pub weight: u64,
    pub allowed: Set,
    pub place: usize,
}

/// The benches with their loads, the rocks and the pebbles.
#[derive(Clone)]
pub struct Bay {
    pub limits: Limits,
    pub benches: usize,
    pub rocks: Rocks,
    pebbles: [Pebble; MAX_JOBS],
    pebble_count: usize,
    /// 3q × (dedicated load and pebbles) of each bench.
    pub own: [u64; 64],
    /// For each bench the benches that a pebble on it may go to.
    pub reach: [Set; 64],
    /// For each bench the benches that a rock below Rule 2's limit joins to it.
    pub near: [Set; 64],
}

impl Bay {
    fn empty(head: Head) -> Bay {
        Bay {
            limits: Limits::of(head),
            benches: head.benches as usize,
            rocks: Rocks::new(),
            pebbles: [Pebble::default(); MAX_JOBS],
            pebble_count: 0,
            own: [0; 64],
            reach: [Set::EMPTY; 64],
            near: [Set::EMPTY; 64],
        }
    }

    /// The start of the run for a sheet with no job longer than T, or the benches of the crowded
    /// component.
    pub fn of(sheet: &Sheet) -> Result<Bay, Set> {
        let head = sheet.head();
        let is_rock = |job: &&Job| job.allowed.count_ones() == 2 && is_heavy(head, job);
        let mut components = Components::new(head.benches as usize);
        for job in sheet.jobs().iter().filter(is_rock) {
            components.join(ends(job));
        }
        if let Some(crowded) = components.crowded() {
            return Err(crowded);
        }
        let mut bay = Bay::empty(head);
        // "Booked minutes are dedicated load in the run".
        bay.own = sheet.booked().map(|minutes| bay.limits.scale * minutes);
        for (number, job) in sheet.jobs().iter().enumerate() {
            let weight = bay.limits.scale * job.minutes;
            if is_rock(&job) {
                bay.rocks.push(Rock { job: number, weight, ends: ends(job) });
            } else {
                bay.put(Pebble { job: number, weight, allowed: Set(job.allowed), place: 0 });
            }
        }
        bay.peel(&components);
        Ok(bay)
    }

    /// Puts a job that is no rock on its lowest bench: dedicated load where it has no other, and
    /// "Each light job with a choice starts on its lowest bench".
    fn put(&mut self, pebble: Pebble) {
        let place = pebble.allowed.0.leading_zeros() as usize;
        self.own[place] += pebble.weight;
        if pebble.allowed.len() > 1 {
            self.reach[place] |= pebble.allowed;
            self.pebbles[self.pebble_count] = Pebble { place, ..pebble };
            self.pebble_count += 1;
        }
    }

    fn peel(&mut self, components: &Components) {
        self.rocks.peel(components);
        for (rock, bench) in self.rocks.given() {
            self.own[bench] += rock.weight;
        }
        for rock in self.rocks.left() {
            let &Rock { weight, ends: [one, two], .. } = self.rocks.get(rock);
            if weight < self.limits.rule_2 {
                self.near[one].insert(two);
                self.near[two].insert(one);
            }
        }
    }

    /// The pebbles by job number.
    pub fn pebbles(&self) -> &[Pebble] {
        &self.pebbles[..self.pebble_count]
    }

    /// Moves a pebble to another bench.
    pub fn shift(&mut self, pebble: usize, to: usize) {
        let Pebble { weight, allowed, place: from, .. } = self.pebbles[pebble];
        self.pebbles[pebble].place = to;
        self.own[from] -= weight;
        self.own[to] += weight;
        self.reach[to] |= allowed;
        let left = self.pebbles().iter().filter(|other| other.place == from);
        self.reach[from] = left.fold(Set::EMPTY, |all, other| all | other.allowed);
    }
}

/// The two benches of a rock, the lower one first.
fn ends(job: &Job) -> [usize; 2] {
    let lower = job.allowed.leading_zeros() as usize;
    [lower, 63 - job.allowed.trailing_zeros() as usize]
}
