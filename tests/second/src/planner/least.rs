//! The least weight that a placement leaves in a set of benches. The heavy jobs are taken one by
//! one, in job order, by the procedure of the note on least placements; each takes one pass over
//! the benches.
//!
//! A class is the benches with one label. An open class has exactly one bench that its jobs leave
//! free, and a shut class has none. A job between two open classes makes one class of them; any
//! other job takes the last free bench of the class that it goes to.

use super::bay::is_heavy;
use super::set::Set;
use crate::codec::sheet::{Job, Sheet};

/// "the heavy jobs placed inside it, plus all light jobs whose benches all lie inside it", and the
/// booked minutes of its benches, in the lightest placement; none "where no placement exists". No
/// job is longer than T.
pub fn least_weight(sheet: &Sheet, set: Set) -> Option<u64> {
    let heavy = least_placement(sheet, set)?;
    Some(heavy + light(sheet, set) + booked(sheet, set))
}

/// The least that the heavy jobs placed inside a set weigh in a placement, or none where there is
/// no placement.
pub fn least_placement(sheet: &Sheet, set: Set) -> Option<u64> {
    let head = sheet.head();
    let mut classes = Classes::new(head.benches as usize, set);
    for job in sheet.jobs().iter().filter(|job| is_heavy(head, job)) {
        classes.place(job)?;
    }
    Some(classes.base)
}

/// "all light jobs whose benches all lie inside it".
fn light(sheet: &Sheet, set: Set) -> u64 {
    let head = sheet.head();
    let inside = |job: &&Job| job.allowed & !set.0 == 0 && !is_heavy(head, job);
    sheet.jobs().iter().filter(inside).map(|job| job.minutes).sum()
}

/// Booked minutes count "in a blocking set that holds the bench".
fn booked(sheet: &Sheet, set: Set) -> u64 {
    set.map(|bench| sheet.booked()[bench]).sum()
}

struct Classes {
    benches: usize,
    set: Set,
    label: [usize; 64],
    shut: [bool; 64],
    /// How much more it costs that this bench is the free one of its open class.
    more: [u64; 64],
    /// The least weight of the jobs that were placed.
    base: u64,
}

impl Classes {
    /// Each bench by itself, and free.
    fn new(benches: usize, set: Set) -> Classes {
        let label = std::array::from_fn(|bench| bench);
        Classes { benches, set, label, shut: [false; 64], more: [0; 64], base: 0 }
    }

    /// What it costs to put a job on a bench.
    fn cost(&self, job: &Job, bench: usize) -> u64 {
        let inside = if self.set.has(bench) { job.minutes } else { 0 };
        self.more[bench] + inside
    }

    /// Places the next heavy job, which allows one bench or two, or gives none where no placement
    /// is left.
    fn place(&mut self, job: &Job) -> Option<()> {
        let low = job.allowed.leading_zeros() as usize;
        let high = 63 - job.allowed.trailing_zeros() as usize;
        let (low_shut, high_shut) = (self.shut[low], self.shut[high]);
        if low_shut && high_shut {
            return None;
        }
        let (low_cost, high_cost) = (self.cost(job, low), self.cost(job, high));
        let to_low = !low_shut && (high_shut || low_cost <= high_cost);
        let (end, least) = if to_low { (low, low_cost) } else { (high, high_cost) };
        self.base += least;
        if low_shut || high_shut || self.label[low] == self.label[high] {
            self.shut_class(self.label[end]);
        } else {
            self.join(low, high_cost - least, high, low_cost - least);
        }
        Some(())
    }

    fn shut_class(&mut self, class: usize) {
        for bench in 0..self.benches {
            self.shut[bench] |= self.label[bench] == class;
        }
    }

    /// Makes one class of those of two benches; what a free bench costs rises in each by so much.
    fn join(&mut self, low: usize, low_rise: u64, high: usize, high_rise: u64) {
        let (one, two) = (self.label[low], self.label[high]);
        for bench in 0..self.benches {
            if self.label[bench] == one {
                self.more[bench] += low_rise;
            } else if self.label[bench] == two {
                self.more[bench] += high_rise;
                self.label[bench] = one;
            }
        }
    }
}
