//! Lists of places.

use super::Wrong;
use crate::codec::sheet::{Head, Job};

impl Wrong<'_> {
    pub fn list(&self, mut places: Vec<u64>) -> String {
        let jobs = self.sheet.jobs();
        if self.makes("one place too many is taken") {
            places.truncate(jobs.len());
        }
        if self.makes("a missing place is bench 0") {
            places.resize(jobs.len().max(places.len()), 0);
        }
        if places.len() != jobs.len() {
            return "fault 16 0".to_string();
        }
        let read = |place: u64| match self.mistake {
            "places count modulo 64" => place % 64,
            "places count modulo 2^32" => place % (1 << 32),
            _ => place,
        };
        self.whole_list(&places.into_iter().map(read).collect::<Vec<u64>>())
    }

    /// A list with one place a job.
    fn whole_list(&self, places: &[u64]) -> String {
        let lax = self.makes("the benches that a job allows are not looked at");
        let benches = self.sheet.head().benches;
        let allowed = |(job, &place): (&Job, &u64)| place < benches && (lax || job.allows(place));
        let long = self.makes("a list is not passed where a job is long") && self.long().is_some();
        let loads: Vec<u64> = (0..benches).map(|bench| self.load(places, bench)).collect();
        let within = loads.iter().all(|&load| self.is_within(load));
        if long || !self.sheet.jobs().iter().zip(places).all(allowed) || !within {
            return "not passed".to_string();
        }
        let largest = loads.iter().max().expect("a bench");
        let is_fullest = |load: &u64| load == largest;
        let fullest = match self.makes("the highest of several benches as full is named") {
            true => loads.iter().rposition(is_fullest),
            false => loads.iter().position(is_fullest),
        };
        format!("passed {largest} {}", fullest.expect("a bench"))
    }

    fn load(&self, places: &[u64], bench: u64) -> u64 {
        let here = self.sheet.jobs().iter().zip(places).filter(|&(_, &place)| place == bench);
        self.booked(bench as usize) + here.map(|(job, _)| job.minutes).sum::<u64>()
    }

    fn is_within(&self, load: u64) -> bool {
        let Head { p, q, target, .. } = self.sheet.head();
        let (load, bound) = (3 * q * load, (5 * q + p) * target);
        match self.mistake {
            "a load at the bound is not passed" => load < bound,
            "a load one above the bound is passed" => load <= bound + 3 * q,
            "the bound is not looked at" => true,
            _ => load <= bound,
        }
    }
}
