//! Heavy jobs with two benches: "Heavy jobs join their two benches; two jobs on the same pair make
//! a cycle of two."

use super::set::Set;

/// A rock, an edge between two benches.
#[derive(Clone, Copy, Default)]
pub struct Rock {
    pub job: usize,
    /// 3q × minutes.
    pub weight: u64,
    /// The two benches, the lower one first.
    pub ends: [usize; 2],
}

impl Rock {
    pub fn other_end(&self, bench: usize) -> usize {
        self.ends[0] + self.ends[1] - bench
    }
}

/// The components of the benches under the rocks, and the rocks of each.
pub struct Components {
    benches: usize,
    /// For each bench the benches of its component.
    of: [Set; 64],
    /// The number of rocks in a component, kept at its lowest bench.
    rocks: [usize; 64],
}

impl Components {
    /// Each bench by itself.
    pub fn new(benches: usize) -> Components {
        Components { benches, of: std::array::from_fn(Set::one), rocks: [0; 64] }
    }

    fn lowest(&self, bench: usize) -> usize {
        self.of[bench].0.leading_zeros() as usize
    }

    pub fn join(&mut self, [one, two]: [usize; 2]) {
        let (first, second) = (self.lowest(one), self.lowest(two));
        if first != second {
            let both = self.of[one] | self.of[two];
            let rocks = self.rocks[first] + self.rocks[second];
            for bench in both {
                self.of[bench] = both;
            }
            self.rocks[first.min(second)] = rocks;
        }
        self.rocks[self.lowest(one)] += 1;
    }

    /// The lowest bench of each component.
    fn lowest_benches(&self) -> impl Iterator<Item = usize> + '_ {
        (0..self.benches).filter(|&bench| self.lowest(bench) == bench)
    }

    /// "A component with more such jobs than benches gives None with its benches [...] (the
    /// component with the lowest bench)."
    pub fn crowded(&self) -> Option<Set> {
        let crowded = |&bench: &usize| self.rocks[bench] > self.of[bench].len();
        self.lowest_benches().find(crowded).map(|bench| self.of[bench])
    }

    /// The benches of components with as many rocks as benches: those with one cycle.
    fn with_cycle(&self) -> Set {
        let full = |bench: &usize| self.rocks[*bench] == self.of[*bench].len();
        self.lowest_benches().filter(full).fold(Set::EMPTY, |all, bench| all | self.of[bench])
    }
}

/// The rocks, by job number. With no crowded component there are at most as many as benches.
#[derive(Clone)]
pub struct Rocks {
    list: [Rock; 64],
    count: usize,
    /// The rocks at each bench.
    at: [Set; 64],
    /// Rocks that are dedicated load by now, and the bench of each.
    peeled: Set,
    given_to: [usize; 64],
}

impl Rocks {
    pub fn new() -> Rocks {
        let list = [Rock::default(); 64];
        Rocks { list, count: 0, at: [Set::EMPTY; 64], peeled: Set::EMPTY, given_to: [0; 64] }
    }

    pub fn push(&mut self, rock: Rock) {
        for bench in rock.ends {
            self.at[bench].insert(self.count);
        }
        self.list[self.count] = rock;
        self.count += 1;
    }

    pub fn get(&self, rock: usize) -> &Rock {
        &self.list[rock]
    }

    /// The rocks left at a bench.
    pub fn at(&self, bench: usize) -> Set {
        self.at[bench]
    }

    /// The rocks that are left.
    pub fn left(&self) -> Set {
        Set::first(self.count) - self.peeled
    }

    /// The rocks that are dedicated load, and the bench of each.
    pub fn given(&self) -> impl Iterator<Item = (&Rock, usize)> {
        self.peeled.map(|rock| (&self.list[rock], self.given_to[rock]))
    }

    /// "Jobs hanging off a cycle point away from it and become dedicated load." While a bench of a
    /// component with a cycle has exactly one rock left, that rock is given to it.
    pub fn peel(&mut self, components: &Components) {
        let mut full = components.with_cycle();
        while let Some(bench) = full.find(|&bench| self.at[bench].len() == 1) {
            let rock = self.at[bench].0.leading_zeros() as usize;
            self.peeled.insert(rock);
            self.given_to[rock] = bench;
            for end in self.list[rock].ends {
                self.at[end].remove(rock);
            }
            full = components.with_cycle();
        }
    }
}

impl Default for Rocks {
    fn default() -> Rocks {
        Rocks::new()
    }
}
