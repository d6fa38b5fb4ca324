//! The heavy jobs of a sheet, by the benches that they join.

use second::codec::sheet::Sheet;
use second::planner::bay::is_heavy;
use second::planner::set::Set;

/// Heavy jobs that hang together.
pub struct Part {
    pub benches: Set,
    pub jobs: usize,
    pub with_one_bench: usize,
    /// Two jobs have the same two benches.
    has_twins: bool,
}

impl Part {
    pub fn is_crowded(&self) -> bool {
        self.jobs > self.benches.len()
    }

    pub fn is_partly_in(&self, set: Set) -> bool {
        !(self.benches & set).is_empty() && !(self.benches - set).is_empty()
    }

    /// As many jobs as benches but one.
    pub fn is_tree(&self) -> bool {
        self.jobs + 1 == self.benches.len()
    }

    /// As many jobs as benches.
    fn is_full(&self) -> bool {
        self.jobs == self.benches.len()
    }

    pub fn is_full_by_one_bench(&self) -> bool {
        self.is_full() && self.with_one_bench > 0
    }

    pub fn is_cycle(&self) -> bool {
        self.is_full() && self.with_one_bench == 0 && !self.has_twins
    }

    pub fn is_cycle_of_two(&self) -> bool {
        self.is_full() && self.has_twins
    }
}

/// The parts of the heavy jobs, no bench without one.
pub fn parts(sheet: &Sheet) -> Vec<Part> {
    let head = sheet.head();
    let heavy: Vec<u64> =
        sheet.jobs().iter().filter(|job| is_heavy(head, job)).map(|job| job.allowed).collect();
    let mut parts: Vec<u64> = Vec::new();
    for &allowed in &heavy {
        let joined = parts.iter().filter(|&part| part & allowed != 0).fold(allowed, |a, b| a | b);
        parts.retain(|part| part & allowed == 0);
        parts.push(joined);
    }
    let part = |benches: u64| {
        let jobs: Vec<u64> = heavy.iter().copied().filter(|job| job & benches != 0).collect();
        let twin =
            |&(index, job): &(usize, &u64)| job.count_ones() == 2 && jobs[..index].contains(job);
        Part {
            benches: Set(benches),
            jobs: jobs.len(),
            with_one_bench: jobs.iter().filter(|job| job.count_ones() == 1).count(),
            has_twins: jobs.iter().enumerate().any(|pair| twin(&pair)),
        }
    };
    parts.into_iter().map(part).collect()
}
