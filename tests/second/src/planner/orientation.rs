//! Directed and neutral rocks, FORCED ORIENTATIONS, and the neutral rocks of a plan.

use super::bay::Bay;
use super::rocks::Rock;
use super::set::Set;

/// The rocks of a bay, some directed. "If uv is directed toward v, we call v a father of u, and u
/// a child of v."
pub struct Orientation<'a> {
    pub bay: &'a Bay,
    neutral: Set,
    /// The bench that a directed rock points to.
    head: [usize; 64],
    /// Own load and the rocks directed to the bench.
    pub load: [u64; 64],
    /// The benches from which a rock is directed to the bench.
    pub children: [Set; 64],
    /// Benches from which a neutral rock is forced.
    forcing: Set,
    /// Benches with a neutral rock.
    open: Set,
    /// Benches that received a rock since this was last taken.
    received: Set,
}

impl<'a> Orientation<'a> {
    /// "In the beginning, all edges [...] are neutral."
    pub fn neutral(bay: &'a Bay) -> Orientation<'a> {
        let mut orientation = Orientation {
            bay,
            neutral: bay.rocks.left(),
            head: [0; 64],
            load: bay.own,
            children: [Set::EMPTY; 64],
            forcing: Set::EMPTY,
            open: Set::EMPTY,
            received: Set::EMPTY,
        };
        for bench in 0..bay.benches {
            orientation.look_again(bench);
        }
        orientation
    }

    pub fn open(&self) -> Set {
        self.open
    }

    pub fn take_received(&mut self) -> Set {
        std::mem::take(&mut self.received)
    }

    fn neutral_at(&self, bench: usize) -> Set {
        self.neutral & self.bay.rocks.at(bench)
    }

    /// "neutral edge vu [...], s.t. dl(v) + pl(v) + rl(v) + w_vu > (5/3 + β/3)t", the lowest job.
    fn first_forced(&self, bench: usize) -> Option<usize> {
        let room_left = self.bay.limits.bound.checked_sub(self.load[bench]);
        let forced = |&rock: &usize| room_left.is_none_or(|room| self.weight(rock) > room);
        self.neutral_at(bench).find(forced)
    }

    fn weight(&self, rock: usize) -> u64 {
        self.bay.rocks.get(rock).weight
    }

    fn look_again(&mut self, bench: usize) {
        self.open.put(bench, !self.neutral_at(bench).is_empty());
        self.forcing.put(bench, self.first_forced(bench).is_some());
    }

    /// Directs a neutral rock away from one of its benches and gives the other.
    fn direct(&mut self, rock: usize, tail: usize) -> usize {
        let head = self.bay.rocks.get(rock).other_end(tail);
        self.neutral.remove(rock);
        self.head[rock] = head;
        self.load[head] += self.weight(rock);
        self.children[head].insert(tail);
        self.received.insert(head);
        self.look_again(tail);
        self.look_again(head);
        head
    }

    /// A fake orientation: the lowest neutral rock of an open bench is directed away from it.
    pub fn fake(&mut self, tail: usize) {
        if let Some(rock) = self.neutral_at(tail).lowest() {
            self.direct(rock, tail);
        }
    }

    /// Directs the lowest rock forced from a bench and gives the bench it points to.
    fn force(&mut self, tail: usize) -> usize {
        let rock = self.first_forced(tail).expect("the bench forces a rock");
        self.direct(rock, tail)
    }

    /// FORCED ORIENTATIONS, Figure 4.5. The inner loop takes only benches that received a rock in
    /// this turn of the outer one. "Forced and fake orientations take the lowest bench, then the
    /// lowest job".
    pub fn forced_orientations(&mut self) {
        while let Some(source) = self.forcing.lowest() {
            let mut marked = Set::one(self.force(source));
            while let Some(bench) = (self.forcing & marked).lowest() {
                marked.insert(self.force(bench));
            }
        }
    }

    /// "a node v is overloaded if dl(v) + pl(v) + rl(v) > (5/3 + β/3)t".
    pub fn overloaded(&self) -> Set {
        let over = |&bench: &usize| self.load[bench] > self.bay.limits.bound;
        Set::first(self.bay.benches).filter(over).fold(Set::EMPTY, |all, b| all | Set::one(b))
    }

    /// The bench and the weight of each rock that is directed away from a bench.
    pub fn fathers(&self, bench: usize) -> impl Iterator<Item = (usize, u64)> + '_ {
        let directed = self.bay.rocks.at(bench) - self.neutral;
        let away = directed.filter(move |&rock| self.head[rock] != bench);
        away.map(|rock| (self.head[rock], self.weight(rock)))
    }

    /// Every rock that is directed, and the bench it points to.
    pub fn directed(&self) -> impl Iterator<Item = (&Rock, usize)> {
        let rocks = self.bay.rocks.left() - self.neutral;
        rocks.map(|rock| (self.bay.rocks.get(rock), self.head[rock]))
    }

    /// "With no bench overloaded, a neutral tree points away from its lowest bench; in a neutral
    /// cycle its lowest job goes to its higher bench and the rest follow round."
    pub fn settle(&mut self, counts: &mut Settled) {
        while let Some(lowest) = self.open.lowest() {
            let (benches, rocks) = self.neutral_component(lowest);
            if rocks.len() < benches.len() {
                counts.trees += 1;
                self.point_away(lowest);
            } else {
                counts.cycles += 1;
                let job = rocks.0.leading_zeros() as usize;
                let higher = self.direct(job, self.bay.rocks.get(job).ends[0]);
                self.point_away(higher);
            }
        }
    }

    /// The benches joined to one by neutral rocks, and these rocks.
    fn neutral_component(&self, bench: usize) -> (Set, Set) {
        let (mut benches, mut rocks) = (Set::one(bench), Set::EMPTY);
        let mut fresh = benches;
        while let Some(bench) = fresh.next() {
            rocks |= self.neutral_at(bench);
            for rock in self.neutral_at(bench) {
                let other = Set::one(self.bay.rocks.get(rock).other_end(bench));
                fresh |= other - benches;
                benches |= other;
            }
        }
        (benches, rocks)
    }

    /// Directs the neutral rocks of a bench away from it, and so on from each that received one.
    fn point_away(&mut self, bench: usize) {
        let mut senders = Set::one(bench);
        while let Some(sender) = senders.next() {
            for rock in self.neutral_at(sender) {
                senders.insert(self.direct(rock, sender));
            }
        }
    }
}

/// How many neutral trees and cycles were directed for a plan.
#[derive(Clone, Copy, Debug, Default, PartialEq, Eq)]
pub struct Settled {
    pub trees: u64,
    pub cycles: u64,
}
