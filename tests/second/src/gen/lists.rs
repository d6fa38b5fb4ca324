//! Lists of places for a day: assignments, lists that differ from one in a job or two, and places
//! that are no bench of a job.

use super::day::Day;
use crate::codec::sheet::Job;
use crate::planner::set::Set;
use crate::rng::Rng;

/// A table of these numbers.
pub fn table(numbers: &[u64]) -> Vec<u8> {
    numbers.iter().flat_map(|number| number.to_le_bytes()).collect()
}

/// One allowed bench for each job.
pub fn assignment(rng: &mut Rng, day: &Day) -> Vec<u64> {
    let mut place = |allowed: u64| {
        let benches: Vec<usize> = Set(allowed).collect();
        rng.pick(&benches) as u64
    };
    day.jobs.iter().map(|job| place(job.allowed)).collect()
}

/// Every list of so many places from 0 to `last`.
pub fn all(count: usize, last: u64) -> impl Iterator<Item = Vec<u64>> {
    let places = last + 1;
    let place = move |list: u64, job: usize| list / places.pow(job as u32) % places;
    (0..places.pow(count as u32)).map(move |list| (0..count).map(|job| place(list, job)).collect())
}

/// The list with a job on another place.
pub fn with(list: &[u64], job: usize, place: u64) -> Vec<u64> {
    let mut list = list.to_vec();
    list[job] = place;
    list
}

/// The benches that a job allows, but for one.
pub fn others(job: &Job, place: u64) -> Vec<u64> {
    Set(job.allowed).map(|bench| bench as u64).filter(|&bench| bench != place).collect()
}

/// The benches of the head that a job does not allow.
pub fn not_allowed(day: &Day, job: &Job) -> Vec<u64> {
    (0..day.head.benches).filter(|&bench| !Set(job.allowed).has(bench as usize)).collect()
}

/// What is no bench of the head or no bench at all, some of it `own` where bits are lost.
pub fn no_bench(rng: &mut Rng, benches: u64, own: u64) -> u64 {
    rng.pick(&[
        benches,
        63,
        64,
        64 + own,
        255,
        256 + own,
        (1 << 32) + own,
        (1 << 63) + own,
        1 << 63,
        own << 56 | 1 << 8,
        u64::MAX,
    ])
}

/// Two lists that differ in two jobs of equal minutes above 0, which have each other's bench: the
/// loads are equal. None where no two jobs can be exchanged.
pub fn exchanged(rng: &mut Rng, day: &Day, list: &[u64]) -> Option<[Vec<u64>; 2]> {
    let jobs = &day.jobs;
    let common = |one: usize, two: usize| Set(jobs[one].allowed & jobs[two].allowed);
    let is_pair = |&(one, two): &(usize, usize)| {
        let minutes = jobs[one].minutes;
        one != two && minutes > 0 && minutes == jobs[two].minutes && common(one, two).len() > 1
    };
    let mut order: Vec<usize> = (0..jobs.len()).collect();
    rng.shuffle(&mut order);
    let mut pairs = order.iter().flat_map(|&one| order.iter().map(move |&two| (one, two)));
    let (one, two) = pairs.find(is_pair)?;
    let mut benches: Vec<u64> = common(one, two).map(|bench| bench as u64).collect();
    rng.shuffle(&mut benches);
    let place = |a: u64, b: u64| with(&with(list, one, a), two, b);
    Some([place(benches[0], benches[1]), place(benches[1], benches[0])])
}
