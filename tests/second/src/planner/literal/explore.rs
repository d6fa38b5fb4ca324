//! FORCED ORIENTATIONS and EXPLORE2, word for word.

use super::{benches_of, Benches, Literal, Rock};

impl Literal<'_> {
    /// The first bench and neutral rock at it, among these benches, that meet a condition.
    pub fn neutral(
        &self,
        among: &Benches,
        meets: impl Fn(usize, &Rock) -> bool,
    ) -> Option<[usize; 2]> {
        for &bench in among {
            for (number, rock) in self.rocks.iter().enumerate() {
                if rock.head.is_none() && rock.ends.contains(&bench) && meets(bench, rock) {
                    return Some([bench, number]);
                }
            }
        }
        None
    }

    pub fn direct(&mut self, [tail, rock]: [usize; 2]) -> usize {
        let [one, two] = self.rocks[rock].ends;
        let head = if one == tail { two } else { one };
        self.rocks[rock].head = Some(head);
        head
    }

    pub fn forced_orientations(&mut self) {
        let all: Benches = self.benches().collect();
        let forced = |run: &Self, among: &Benches| {
            run.neutral(among, |bench, rock| run.load(bench) + rock.weight > run.bound())
        };
        while let Some(first) = forced(self, &all) {
            let mut marked = Benches::from([self.direct(first)]);
            while let Some(next) = forced(self, &marked) {
                let head = self.direct(next);
                marked.insert(head);
            }
        }
    }

    /// The tail of each directed rock, its head, and its weight.
    pub fn arcs(&self) -> Vec<(usize, usize, u64)> {
        let arc = |rock: &Rock| {
            let head = rock.head?;
            Some((rock.ends[0] + rock.ends[1] - head, head, rock.weight))
        };
        self.rocks.iter().filter_map(arc).collect()
    }

    /// F(v) as weights.
    pub fn fathers(&self, bench: usize) -> Vec<u64> {
        let inside =
            |&(tail, head, _): &(usize, usize, u64)| tail == bench && self.conflict.contains(&head);
        self.arcs().into_iter().filter(inside).map(|(_, _, weight)| weight).collect()
    }

    fn construct_conflict_set(&mut self) {
        loop {
            let joins = self.arcs().into_iter().find(|(tail, head, _)| {
                !self.conflict.contains(tail) && self.conflict.contains(head)
            });
            if let Some((tail, _, _)) = joins {
                self.conflict.insert(tail);
            } else if let Some(fake) = self.neutral(&self.conflict, |_, _| true) {
                self.direct(fake);
                self.forced_orientations();
            } else {
                return;
            }
        }
    }

    fn by_rule(&self, bench: usize) -> bool {
        let rule_1 = self.fathers(bench).iter().any(|w| self.own(bench) + w > self.bound());
        let limit = (2 * self.head.q + self.head.p) * self.head.target;
        let rule_2 = self.arcs().iter().any(|&(tail, head, weight)| {
            weight < limit
                && (tail == bench && self.activated.contains(&head)
                    || head == bench && self.activated.contains(&tail))
        });
        rule_1 || rule_2
    }

    fn activate(&mut self, bench: usize, level: usize) {
        self.activated.insert(bench);
        self.conflict.insert(bench);
        self.level[bench] = Some(level);
    }

    fn reachable(&self, level: usize) -> Benches {
        let light = (0..self.jobs.len()).filter(|&job| self.is_light_with_choice(job));
        let there = light
            .filter(|&job| self.place[job].is_some_and(|bench| self.level[bench] == Some(level)));
        there.flat_map(|job| benches_of(&self.jobs[job])).collect()
    }

    pub fn explore(&mut self) {
        self.rocks.iter_mut().for_each(|rock| rock.head = None);
        self.conflict.clear();
        self.activated.clear();
        self.level = vec![None; 64];
        self.forced_orientations();
        let over = |&bench: &usize| self.load(bench) > self.bound();
        let mut type_a: Benches = self.benches().filter(over).collect();
        let mut level = 0;
        while !type_a.is_empty() {
            type_a.iter().for_each(|&bench| self.activate(bench, level));
            self.construct_conflict_set();
            let waits = |run: &Self| run.conflict.difference(&run.activated).copied().collect();
            loop {
                let waiting: Vec<usize> = waits(self);
                let Some(bench) = waiting.into_iter().find(|&bench| self.by_rule(bench)) else {
                    break;
                };
                self.activate(bench, level);
            }
            type_a = self.reachable(level).difference(&self.activated).copied().collect();
            level += 1;
        }
    }
}
