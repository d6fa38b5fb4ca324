//! EXPLORE2, Figure 4.6: conflict set, activated set and levels.

use super::bay::Bay;
use super::orientation::Orientation;
use super::set::Set;

/// What one exploration leaves behind.
pub struct Exploration<'a> {
    pub orientation: Orientation<'a>,
    pub conflict: Set,
    pub activated: Set,
    /// The benches of each level, up to the highest; "LEVEL(v) = i if v ∈ A_i".
    levels: [Set; 64],
    pub rounds: usize,
    /// Benches that are not in the conflict set yet and have a father in it, or opened the round.
    joining: Set,
    /// Benches that Rule 2's edges join to an activated one.
    near: Set,
    pub counts: Explored,
}

/// What the explorations of a run did.
#[derive(Clone, Copy, Debug, Default, PartialEq, Eq)]
pub struct Explored {
    pub explorations: u64,
    pub rounds: u64,
    pub fakes: u64,
    /// Benches activated by each rule.
    pub rule_1: u64,
    pub rule_2: u64,
    /// Benches that some exploration gave a level above 1.
    pub above_1: u64,
    pub highest_level: usize,
}

impl Explored {
    pub fn add(&mut self, more: &Explored) {
        self.explorations += more.explorations;
        self.rounds += more.rounds;
        self.fakes += more.fakes;
        self.rule_1 += more.rule_1;
        self.rule_2 += more.rule_2;
        self.above_1 += more.above_1;
        self.highest_level = self.highest_level.max(more.highest_level);
    }
}

impl<'a> Exploration<'a> {
    pub fn explore(bay: &'a Bay) -> Exploration<'a> {
        let mut orientation = Orientation::neutral(bay);
        orientation.forced_orientations();
        // "If i = 0: A_i := {v | v is overloaded}."
        let mut type_a = orientation.overloaded();
        let mut exploration = Exploration {
            orientation,
            conflict: Set::EMPTY,
            activated: Set::EMPTY,
            levels: [Set::EMPTY; 64],
            rounds: 0,
            joining: Set::EMPTY,
            near: Set::EMPTY,
            counts: Explored::default(),
        };
        // "If A_i = ∅: stop."
        while !type_a.is_empty() {
            exploration.round(type_a);
            type_a = exploration.reached();
        }
        exploration.count();
        exploration
    }

    fn round(&mut self, type_a: Set) {
        self.activate(type_a);
        self.joining |= type_a - self.conflict;
        self.construct_conflict_set();
        self.activate_by_rules();
        self.rounds += 1;
    }

    /// "Else A_i := {v | v ∉ A, v is reachable from A_{i−1}}."
    fn reached(&self) -> Set {
        let last = self.levels[self.rounds - 1];
        last.fold(Set::EMPTY, |all, bench| all | self.bay().reach[bench]) - self.activated
    }

    fn bay(&self) -> &'a Bay {
        self.orientation.bay
    }

    fn activate(&mut self, benches: Set) {
        self.activated |= benches;
        self.levels[self.rounds] |= benches;
        for bench in benches {
            self.near |= self.bay().near[bench];
        }
    }

    /// "While ∃ v ∉ C with a father u ∈ C or ∃ neutral vu with v ∈ C".
    fn construct_conflict_set(&mut self) {
        self.join_children();
        while let Some(bench) = (self.conflict & self.orientation.open()).lowest() {
            self.counts.fakes += 1;
            self.orientation.fake(bench);
            self.orientation.forced_orientations();
            for bench in self.orientation.take_received() & self.conflict {
                self.joining |= self.orientation.children[bench] - self.conflict;
            }
            self.join_children();
        }
    }

    fn join_children(&mut self) {
        while let Some(bench) = self.joining.next() {
            self.conflict.insert(bench);
            self.joining |= self.orientation.children[bench] - self.conflict;
        }
    }

    /// The rules do not depend on the order in which benches are activated. Every rock at a bench
    /// of the conflict set is directed by now, so that Rule 2's D(v) ∪ F(v) has all its rocks
    /// inside the conflict set.
    fn activate_by_rules(&mut self) {
        let critical = (self.conflict - self.activated).filter(|&bench| self.is_critical(bench));
        let critical = critical.fold(Set::EMPTY, |all, bench| all | Set::one(bench));
        self.counts.rule_1 += critical.len() as u64;
        self.activate(critical);
        loop {
            let found = (self.near & self.conflict) - self.activated;
            if found.is_empty() {
                break;
            }
            self.counts.rule_2 += found.len() as u64;
            self.activate(found);
        }
    }

    /// Rule 1: "∃ u ∈ F(v), such that dl(v) + pl(v) + w_vu > (5/3 + β/3)t".
    fn is_critical(&self, bench: usize) -> bool {
        let own = self.bay().own[bench];
        self.fathers(bench).any(|weight| own + weight > self.bay().limits.bound)
    }

    /// F(v): the weights of the rocks directed from a bench to benches of the conflict set.
    pub fn fathers(&self, bench: usize) -> impl Iterator<Item = u64> + '_ {
        let fathers = self.orientation.fathers(bench);
        fathers.filter(|&(father, _)| self.conflict.has(father)).map(|(_, weight)| weight)
    }

    /// D(v) is empty: no bench of the conflict set has a rock directed to this one.
    pub fn is_leaf(&self, bench: usize) -> bool {
        (self.orientation.children[bench] & self.conflict).is_empty()
    }

    /// The benches of each level, the lowest level first.
    pub fn levels(&self) -> &[Set] {
        &self.levels[..self.rounds]
    }

    fn count(&mut self) {
        self.counts.explorations = 1;
        self.counts.rounds = self.rounds as u64;
        self.counts.highest_level = self.rounds.saturating_sub(1);
        let above = self.levels().iter().skip(2);
        self.counts.above_1 = above.map(|level| level.len() as u64).sum();
    }
}
