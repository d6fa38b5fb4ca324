//! Pages of sets.

use super::Wrong;
use crate::codec::fault::{SET, SHARED};
use crate::planner::set::Set;

/// The mistakes that a case of a page can name besides.
pub const PAGE_MISTAKES: [&str; 37] = [
    "sharing is not tried",
    "sharing is tried with the neighbour only",
    "sharing is tried with the first set only",
    "sharing is tried with later sets",
    "sharing is tried with blocking sets only",
    "only the same set again is shared",
    "shared benches count for the first set only",
    "18 is tried before 17 at a set",
    "18 is tried on the whole page before 17",
    "17 is tried on the whole page before 18",
    "the last fault is named",
    "the place of 17 is the bench",
    "the place of 18 is the bench",
    "the place of 18 is the earlier set",
    "sets count from 1",
    "an empty set is left out",
    "only 64 sets are tried",
    "more than 64 sets are fault 17",
    "long comes before the page's faults",
    "long comes before 18",
    "the sets are judged before long",
    "a set that is not blocking comes before the faults",
    "an empty page is refused",
    "an empty page is not passed",
    "an empty page passes where a job is long",
    "the last set that is not blocking is named",
    "the set is named by its benches",
    "sets are taken by rising benches",
    "a page passes where its union blocks",
    "a page passes where one set blocks",
    "only the union is judged",
    "only the first set is judged",
    "only the last set is judged",
    "the last set is not judged",
    "k is that of the union",
    "a set has the weight of earlier ones",
    "a light job inside the union counts",
];

/// A fault's number and place.
type Fault = (u32, usize);

impl Wrong<'_> {
    pub fn page(&self, sets: Vec<Set>) -> String {
        let sets = self.taken(sets);
        if let (true, Some(answer)) = (sets.is_empty(), self.empty_page()) {
            return answer.to_string();
        }
        let found = self.page_fault(&sets);
        let long = self.long().filter(|_| !self.makes("long is not tried"));
        let early = found.filter(|&(number, _)| number == SET);
        let print_fault = |(number, place): Fault| format!("fault {number} {place}");
        let [early, fault] = [early, found].map(|fault| fault.map(print_fault));
        let long = long.map(|job| format!("long {job}"));
        let refused = self.refused(&sets);
        let answer = match self.mistake {
            "long comes before the page's faults" => long.or(fault).or(refused),
            "long comes before 18" => early.or(long).or(fault).or(refused),
            "the sets are judged before long" => fault.or(refused).or(long),
            "a set that is not blocking comes before the faults" => refused.or(fault).or(long),
            _ => fault.or(long).or(refused),
        };
        answer.unwrap_or("passed".to_string())
    }

    fn empty_page(&self) -> Option<&str> {
        match self.mistake {
            "an empty page is refused" => Some("fault 17 0"),
            "an empty page is not passed" => Some("not passed 0"),
            "an empty page passes where a job is long" => Some("passed"),
            _ => None,
        }
    }

    /// The sets as they are read.
    fn taken(&self, mut sets: Vec<Set>) -> Vec<Set> {
        let all = Set::first(self.sheet.head().benches as usize);
        match self.mistake {
            "an empty set is left out" => sets.retain(|set| !set.is_empty()),
            "a bench that the head lacks is left out" => {
                sets.iter_mut().for_each(|set| *set = *set & all);
            }
            "shared benches count for the first set only" => {
                let mut earlier = Set::EMPTY;
                for set in &mut sets {
                    *set = *set - earlier;
                    earlier |= *set;
                }
            }
            "only 64 sets are tried" => sets.truncate(64),
            "sets are taken by rising benches" => sets.sort_by_key(|set| set.lowest()),
            _ => {}
        }
        sets
    }

    /// The number by which a set is named.
    fn named(&self, set: usize) -> usize {
        set + usize::from(self.makes("sets count from 1"))
    }

    /// The fault of the page that is found first.
    fn page_fault(&self, sets: &[Set]) -> Option<Fault> {
        let of_set = |number: usize| {
            let mut both = [self.bad_set(sets, number), self.shared(sets, number)];
            if self.makes("18 is tried before 17 at a set") {
                both.reverse();
            }
            both.into_iter().flatten()
        };
        let mut faults: Vec<Fault> = (0..sets.len()).flat_map(of_set).collect();
        match self.mistake {
            "18 is tried on the whole page before 17" => faults.sort_by_key(|fault| fault.0 == SET),
            "17 is tried on the whole page before 18" => faults.sort_by_key(|fault| fault.0 != SET),
            "the last fault is named" => faults.reverse(),
            "more than 64 sets are fault 17" if sets.len() > 64 => faults.insert(0, (SET, 64)),
            _ => {}
        }
        faults.first().copied()
    }

    fn bad_set(&self, sets: &[Set], number: usize) -> Option<Fault> {
        let set = sets[number];
        let foreign = set - Set::first(self.sheet.head().benches as usize);
        let place = match self.makes("the place of 17 is the bench") {
            true => foreign.lowest().unwrap_or(0),
            false => self.named(number),
        };
        (set.is_empty() || !foreign.is_empty()).then_some((SET, place))
    }

    fn shared(&self, sets: &[Set], number: usize) -> Option<Fault> {
        let set = sets[number];
        let others = match self.mistake {
            "sharing is not tried" => 0..0,
            "sharing is tried with the neighbour only" => number.saturating_sub(1)..number,
            "sharing is tried with the first set only" => 0..number.min(1),
            "sharing is tried with later sets" => number + 1..sets.len(),
            _ => 0..number,
        };
        let shares = |&other: &usize| match self.mistake {
            "only the same set again is shared" => set == sets[other],
            "sharing is tried with blocking sets only" if !self.blocks(sets, other) => false,
            _ => !(set & sets[other]).is_empty(),
        };
        let earlier = { others }.find(shares)?;
        let place = match self.mistake {
            "the place of 18 is the bench" => (set & sets[earlier]).lowest()?,
            "the place of 18 is the earlier set" => earlier,
            _ => self.named(number),
        };
        Some((SHARED, place))
    }

    /// What is said where the page is not passed.
    fn refused(&self, sets: &[Set]) -> Option<String> {
        let passes = match self.mistake {
            "a page passes where its union blocks" | "only the union is judged" => {
                self.blocks(&[union(sets)], 0)
            }
            "a page passes where one set blocks" => {
                (0..sets.len()).any(|number| self.blocks(sets, number))
            }
            _ => false,
        };
        let found = self.named_set(sets).filter(|_| !passes)?;
        let name = match self.mistake {
            "only the union is judged" => 0,
            "the set is named by its benches" => sets[found].0,
            _ => self.named(found) as u64,
        };
        Some(format!("not passed {name}"))
    }

    /// The set to be named, of those that are judged.
    fn named_set(&self, sets: &[Set]) -> Option<usize> {
        let last = sets.len().saturating_sub(1);
        let mut judged = match self.mistake {
            "only the first set is judged" => 0..sets.len().min(1),
            "only the last set is judged" => last..sets.len(),
            "the last set is not judged" => 0..last,
            _ => 0..sets.len(),
        };
        let not_blocking = |&number: &usize| !self.blocks(sets, number);
        match self.makes("the last set that is not blocking is named") {
            true => judged.rfind(not_blocking),
            false => judged.find(not_blocking),
        }
    }

    fn blocks(&self, sets: &[Set], number: usize) -> bool {
        let set = sets[number];
        let weight = match self.mistake {
            "a set has the weight of earlier ones" => {
                sets[..=number].iter().map(|&set| self.weight(set)).sum()
            }
            "a light job inside the union counts" => {
                let light = self.light(union(sets));
                self.heavy(set).map(|heavy| heavy + light + self.booked_in(set))
            }
            _ => self.weight(set),
        };
        let weighed = if self.makes("k is that of the union") { union(sets) } else { set };
        self.is_more(weight, weighed)
    }
}

fn union(sets: &[Set]) -> Set {
    sets.iter().fold(Set::EMPTY, |all, &set| all | set)
}
