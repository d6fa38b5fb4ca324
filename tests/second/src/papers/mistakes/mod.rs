//! Checks that make a mistake, so that the cases can be seen to tell it apart. Without a mistake
//! they are right: everything is tried, and nothing is shared with the second planner's checks but
//! the reader.
//!
//! - `lists`: lists of places.
//! - `pages`: pages of sets.

mod lists;
mod pages;

use super::Paper;
use crate::codec::door::Codec;
use crate::codec::fault::Fault;
use crate::codec::sheet::{Head, Job, Sheet};
use crate::planner::algorithm::{Planner, Rooms};
use crate::planner::set::Set;

pub use pages::PAGE_MISTAKES;

/// The mistakes that a case can name; `PAGE_MISTAKES` has those of pages.
pub const MISTAKES: [&str; 34] = [
    "a list is not passed where a job is long",
    "a load at the bound is not passed",
    "a load one above the bound is passed",
    "the bound is not looked at",
    "bookings are left out",
    "the highest of several benches as full is named",
    "the benches that a job allows are not looked at",
    "places count modulo 64",
    "places count modulo 2^32",
    "one place too many is taken",
    "a missing place is bench 0",
    "the best target counts",
    "heavy jobs share benches",
    "heavy jobs with one bench drive no other away",
    "heavy jobs with one bench are left out",
    "a heavy job with a bench outside is never inside",
    "a heavy job with a bench outside is always inside",
    "a component with a cycle has its first placement only",
    "a component with a cycle has its last placement only",
    "a component without a placement counts only where the set meets it",
    "without a placement no set is passed",
    "a weight of k × T is enough",
    "k is the number of benches of the head",
    "a light job with a bench outside counts",
    "heavy is judged by the longest job",
    "a job of p/q of T is heavy",
    "all bookings count",
    "a booking is a heavy job",
    "long is not tried",
    "the longest job is named",
    "an empty set is judged",
    "the highest bench that the head lacks is named",
    "a bench that the head lacks is left out",
    "long comes before the set's fault",
];

/// What a check says that makes this mistake, or none.
pub fn check(bytes: &[u8], paper: &Paper, mistake: &str) -> String {
    let mut codec = Codec::default();
    let sheet = match codec.read(bytes) {
        Err(Fault { number, place }) => return format!("fault {number} {place}"),
        Ok(sheet) if mistake == "the best target counts" => {
            let best = Planner::new().best(bytes, Rooms::FULL).expect("accepted").target;
            sheet.with_target(best)
        }
        Ok(sheet) => sheet.clone(),
    };
    let wrong = Wrong { sheet: &sheet, mistake };
    match paper {
        Paper::List(places) => wrong.list(places.clone()),
        Paper::Set(set) => wrong.set(*set),
        Paper::Page(sets) => wrong.page(sets.clone()),
    }
}

/// Whether a case can name this mistake.
pub fn is_known(mistake: &str) -> bool {
    MISTAKES.contains(&mistake) || PAGE_MISTAKES.contains(&mistake)
}

struct Wrong<'a> {
    sheet: &'a Sheet,
    mistake: &'a str,
}

impl Wrong<'_> {
    fn makes(&self, mistake: &str) -> bool {
        assert!(is_known(mistake), "{mistake}");
        self.mistake == mistake
    }

    fn booked(&self, bench: usize) -> u64 {
        let left_out = self.makes("bookings are left out");
        if left_out {
            0
        } else {
            self.sheet.booked()[bench]
        }
    }

    fn long(&self) -> Option<usize> {
        let Head { target, .. } = self.sheet.head();
        let long = |&job: &usize| self.sheet.jobs()[job].minutes > target;
        let mut all = (0..self.sheet.jobs().len()).filter(long);
        if self.makes("the longest job is named") {
            return all.max_by_key(|&job| self.sheet.jobs()[job].minutes);
        }
        all.next()
    }

    fn set(&self, set: Set) -> String {
        let benches = self.sheet.head().benches;
        let foreign = match self.mistake {
            "a bench that the head lacks is left out" => Set::EMPTY,
            "the highest bench that the head lacks is named" => {
                (set - Set::first(benches as usize)).last().map_or(Set::EMPTY, Set::one)
            }
            _ => set - Set::first(benches as usize),
        };
        let set = set & Set::first(benches as usize);
        let long = self.long().filter(|_| !self.makes("long is not tried"));
        let early = long.filter(|_| self.makes("long comes before the set's fault"));
        let is_empty = (set | foreign).is_empty();
        if is_empty && !self.makes("an empty set is judged") && early.is_none() {
            return "fault 17 0".to_string();
        }
        if let (Some(bench), None) = (foreign.lowest(), early) {
            return format!("fault 17 {bench}");
        }
        if let Some(job) = long {
            return format!("long {job}");
        }
        let passes = self.is_more(self.weight(set), set);
        if passes { "passed" } else { "not passed" }.to_string()
    }

    /// The least weight of a set.
    fn weight(&self, set: Set) -> Option<u64> {
        self.heavy(set).map(|heavy| heavy + self.light(set) + self.booked_in(set))
    }

    /// Whether a weight is more than k × T for a set of k benches.
    fn is_more(&self, weight: Option<u64>, set: Set) -> bool {
        let Head { benches, target, .. } = self.sheet.head();
        let k = match self.makes("k is the number of benches of the head") {
            true => benches,
            false => set.len() as u64,
        };
        let limit = k * target;
        match weight {
            None => !self.makes("without a placement no set is passed"),
            Some(weight) if self.makes("a weight of k × T is enough") => weight >= limit,
            Some(weight) => weight > limit,
        }
    }

    fn is_heavy(&self, job: &Job) -> bool {
        let Head { p, q, target, .. } = self.sheet.head();
        let longest = self.sheet.jobs().iter().map(|job| job.minutes).max();
        match self.mistake {
            "heavy is judged by the longest job" => q * job.minutes > p * longest.unwrap_or(0),
            "a job of p/q of T is heavy" => q * job.minutes >= p * target,
            _ => q * job.minutes > p * target,
        }
    }

    fn light(&self, set: Set) -> u64 {
        let counts = |job: &&Job| {
            let outside = Set(job.allowed) - set;
            let inside = match self.makes("a light job with a bench outside counts") {
                true => outside != Set(job.allowed),
                false => outside.is_empty(),
            };
            inside && !self.is_heavy(job)
        };
        self.sheet.jobs().iter().filter(counts).map(|job| job.minutes).sum()
    }

    fn booked_in(&self, set: Set) -> u64 {
        let all = Set::first(self.sheet.head().benches as usize);
        let booked = if self.makes("all bookings count") { all } else { set };
        booked.map(|bench| self.booked(bench)).sum()
    }

    /// The least that the heavy jobs weigh inside the set, component by component.
    fn heavy(&self, set: Set) -> Option<u64> {
        let mut jobs: Vec<Job> = self.sheet.jobs().to_vec();
        if self.makes("a booking is a heavy job") {
            let bench = |bench| Job { minutes: self.booked(bench), allowed: Set::one(bench).0 };
            jobs.extend(Set::first(self.sheet.head().benches as usize).map(bench));
        }
        jobs.retain(|job| self.is_heavy(job));
        let alone = |job: &&Job| job.allowed.count_ones() == 1;
        let mut total = 0;
        if self.makes("heavy jobs with one bench drive no other away") {
            let inside = |job: &&Job| alone(job) && job.allowed & set.0 != 0;
            total += jobs.iter().filter(inside).map(|job| job.minutes).sum::<u64>();
            jobs.retain(|job| !alone(&job));
        }
        if self.makes("heavy jobs with one bench are left out") {
            jobs.retain(|job| !alone(&job));
        }
        while !jobs.is_empty() {
            let component = take_component(&mut jobs);
            total += self.component(&component, set)?;
        }
        Some(total)
    }

    fn component(&self, jobs: &[Job], set: Set) -> Option<u64> {
        let benches = jobs.iter().fold(Set::EMPTY, |all, job| all | Set(job.allowed));
        let mut weights = Vec::new();
        self.place(jobs, set, Set::EMPTY, 0, &mut weights);
        let meets = !(benches & set).is_empty();
        let lax = self.makes("a component without a placement counts only where the set meets it");
        if weights.is_empty() && lax && !meets {
            return Some(0);
        }
        let has_cycle = jobs.len() == benches.len();
        match self.mistake {
            "a component with a cycle has its first placement only" if has_cycle => {
                weights.first().copied()
            }
            "a component with a cycle has its last placement only" if has_cycle => {
                weights.last().copied()
            }
            _ => weights.into_iter().min(),
        }
    }

    /// The weight of each placement of the jobs.
    fn place(&self, jobs: &[Job], set: Set, taken: Set, weight: u64, weights: &mut Vec<u64>) {
        let Some((job, rest)) = jobs.split_first() else {
            weights.push(weight);
            return;
        };
        let outside = !(Set(job.allowed) - set).is_empty();
        for bench in Set(job.allowed) - taken {
            let inside = match self.mistake {
                "a heavy job with a bench outside is never inside" if outside => false,
                "a heavy job with a bench outside is always inside" if outside => {
                    job.allowed & set.0 != 0
                }
                _ => set.has(bench),
            };
            let more = if inside { job.minutes } else { 0 };
            let shared = self.makes("heavy jobs share benches");
            let taken = if shared { taken } else { taken | Set::one(bench) };
            self.place(rest, set, taken, weight + more, weights);
        }
    }
}

/// Takes the first job and those that are joined with it through common benches, in their order.
fn take_component(jobs: &mut Vec<Job>) -> Vec<Job> {
    let mut benches = jobs[0].allowed;
    while let Some(job) =
        jobs.iter().find(|job| job.allowed & benches != 0 && job.allowed & !benches != 0)
    {
        benches |= job.allowed;
    }
    let (component, rest) = jobs.iter().partition(|job| job.allowed & benches != 0);
    *jobs = rest;
    component
}
