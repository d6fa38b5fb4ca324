//! The run once more, word for word and slowly: every "∃" of Figures 4.5 and 4.6 is a search over
//! all benches and rocks, and nothing is kept that could be looked up again. Only the tests use
//! it, against the bookkeeping of the second planner.

mod explore;
mod graph;

use super::example_tests::Owned;
use crate::codec::sheet::{Booked, Head, Job};
use crate::gen::day::Day;
use std::collections::BTreeSet;

type Benches = BTreeSet<usize>;

struct Rock {
    job: usize,
    weight: u64,
    ends: [usize; 2],
    head: Option<usize>,
}

struct Literal<'a> {
    head: Head,
    booked: &'a Booked,
    jobs: &'a [Job],
    rocks: Vec<Rock>,
    /// The bench of every job that is no rock.
    place: Vec<Option<usize>>,
    conflict: Benches,
    activated: Benches,
    level: Vec<Option<usize>>,
}

fn benches_of(job: &Job) -> Vec<usize> {
    (0..64).filter(|&bench| job.allows(bench as u64)).collect()
}

impl Literal<'_> {
    fn benches(&self) -> std::ops::Range<usize> {
        0..self.head.benches as usize
    }

    fn scale(&self) -> u64 {
        3 * self.head.q
    }

    fn bound(&self) -> u64 {
        (5 * self.head.q + self.head.p) * self.head.target
    }

    fn push_bound(&self) -> u64 {
        (5 * self.head.q - 2 * self.head.p) * self.head.target
    }

    fn is_light_with_choice(&self, job: usize) -> bool {
        let heavy = self.head.q * self.jobs[job].minutes > self.head.p * self.head.target;
        !heavy && benches_of(&self.jobs[job]).len() > 1
    }

    /// dl(v) + pl(v)
    fn own(&self, bench: usize) -> u64 {
        let here = (0..self.jobs.len()).filter(|&job| self.place[job] == Some(bench));
        let jobs: u64 = here.map(|job| self.jobs[job].minutes).sum();
        (self.booked[bench] + jobs) * self.scale()
    }

    /// rl(v)
    fn rock_load(&self, bench: usize) -> u64 {
        let here = self.rocks.iter().filter(|rock| rock.head == Some(bench));
        here.map(|rock| rock.weight).sum()
    }

    fn load(&self, bench: usize) -> u64 {
        self.own(bench) + self.rock_load(bench)
    }

    fn may_push(&self, job: usize, to: usize) -> bool {
        let from = self.place[job].expect("a light job has a place");
        let leaf =
            !self.arcs().iter().any(|&(tail, head, _)| head == to && self.conflict.contains(&tail));
        let own = self.own(to);
        self.jobs[job].allows(to as u64)
            && self.level[from].is_some_and(|level| self.level[to] == Some(level + 1))
            && self.load(to) <= self.push_bound()
            && (leaf || self.fathers(to).iter().all(|w| own + w <= self.push_bound()))
    }

    fn push(&mut self) -> bool {
        for job in (0..self.jobs.len()).filter(|&job| self.is_light_with_choice(job)) {
            for bench in self.benches() {
                if self.may_push(job, bench) {
                    self.place[job] = Some(bench);
                    return true;
                }
            }
        }
        false
    }

    fn planned(&self, moves: u64) -> Owned {
        let mut places: Vec<u64> =
            self.place.iter().map(|place| place.map_or(64, |bench| bench as u64)).collect();
        for rock in &self.rocks {
            places[rock.job] = rock.head.expect("every rock is directed") as u64;
        }
        let mut loads = self.booked[..self.head.benches as usize].to_vec();
        for (job, &place) in self.jobs.iter().zip(&places) {
            loads[place as usize] += job.minutes;
        }
        let is_fullest = |&bench: &usize| loads.iter().all(|&load| load <= loads[bench]);
        let fullest = self.benches().find(is_fullest).expect("a bench");
        Owned::Plan { largest: loads[fullest], moves, fullest, places, loads }
    }

    fn run(&mut self) -> Owned {
        if let Some(crowded) = self.crowded() {
            return Owned::None { benches: crowded.into_iter().collect(), moves: 0 };
        }
        self.peel();
        let mut moves = 0;
        loop {
            self.explore();
            if self.activated.is_empty() {
                self.settle();
                return self.planned(moves);
            }
            if !self.push() {
                return Owned::None { benches: self.activated.iter().copied().collect(), moves };
            }
            moves += 1;
        }
    }
}

/// The answer for an accepted day.
pub fn answer(day: &Day) -> Owned {
    let Day { head, booked, jobs } = day;
    let head = *head;
    if let Some(job) = jobs.iter().position(|job| job.minutes > head.target) {
        return Owned::Long(job);
    }
    let is_rock =
        |job: &Job| job.allowed.count_ones() == 2 && head.q * job.minutes > head.p * head.target;
    let rock = |(number, job): (usize, &Job)| Rock {
        job: number,
        weight: 3 * head.q * job.minutes,
        ends: [benches_of(job)[0], benches_of(job)[1]],
        head: None,
    };
    let mut literal = Literal {
        head,
        booked,
        jobs,
        rocks: jobs.iter().enumerate().filter(|(_, job)| is_rock(job)).map(rock).collect(),
        place: jobs.iter().map(|job| (!is_rock(job)).then(|| benches_of(job)[0])).collect(),
        conflict: Benches::new(),
        activated: Benches::new(),
        level: Vec::new(),
    };
    literal.run()
}
