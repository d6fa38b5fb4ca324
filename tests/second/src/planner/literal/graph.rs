//! Components, rocks that hang off a cycle, and the neutral rocks of a plan.

use super::{Benches, Literal, Rock};

impl Literal<'_> {
    /// The benches joined to one by rocks that meet a condition, and these rocks.
    pub fn component(&self, bench: usize, meets: impl Fn(&Rock) -> bool) -> (Benches, Vec<usize>) {
        let mut benches = Benches::from([bench]);
        loop {
            let touches = |rock: &Rock| rock.ends.iter().any(|end| benches.contains(end));
            let rocks = (0..self.rocks.len()).filter(|&rock| meets(&self.rocks[rock]));
            let rocks: Vec<usize> = rocks.filter(|&rock| touches(&self.rocks[rock])).collect();
            let more: Benches = rocks.iter().flat_map(|&rock| self.rocks[rock].ends).collect();
            if more.is_subset(&benches) {
                return (benches, rocks);
            }
            benches.extend(more);
        }
    }

    /// The first crowded component.
    pub fn crowded(&self) -> Option<Benches> {
        let components = self.benches().map(|bench| self.component(bench, |_| true));
        let mut crowded = components.filter(|(benches, rocks)| rocks.len() > benches.len());
        crowded.next().map(|(benches, _)| benches)
    }

    /// Gives each rock that hangs off a cycle to its bench away from it: without the rock, the
    /// part on that side has no cycle.
    pub fn peel(&mut self) {
        let mut given = Vec::new();
        for (number, rock) in self.rocks.iter().enumerate() {
            let (benches, rocks) = self.component(rock.ends[0], |_| true);
            if rocks.len() < benches.len() {
                continue;
            }
            for end in rock.ends {
                let (part, left) = self.component(end, |other| other.job != rock.job);
                if left.len() < part.len() && part.len() < benches.len() {
                    given.push((number, end));
                }
            }
        }
        for (rock, end) in given.into_iter().rev() {
            self.place[self.rocks[rock].job] = Some(end);
            self.rocks.remove(rock);
        }
    }

    pub fn settle(&mut self) {
        for bench in self.benches() {
            let (benches, rocks) = self.component(bench, |rock| rock.head.is_none());
            let cycle = !rocks.is_empty() && rocks.len() == benches.len();
            let mut sent = Benches::from([bench]);
            if cycle {
                let [lower, higher] = self.rocks[rocks[0]].ends;
                self.direct([lower, rocks[0]]);
                sent = Benches::from([higher]);
            }
            while let Some(next) = self.neutral(&sent, |_, _| true) {
                let head = self.direct(next);
                sent.insert(head);
            }
        }
    }
}
