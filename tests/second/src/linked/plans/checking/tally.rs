//! How many lists, sets and pages of each class were met, and of which kind.

use super::kinds::{FAULTS, PAGE_WANTED, WANTED};
use second::codec::door::fault_number;
use second::codec::fault::{LIST, SET, SHARED};
use second::planner::set::Set;
use std::collections::HashMap;

/// A run whose random sheets meet a kind less often has not tested it.
const LEAST: u64 = 100;

#[derive(Default)]
pub struct Tally {
    classes: Vec<(&'static str, u64)>,
    met: HashMap<String, u64>,
    pub lists: u64,
    pub sets: u64,
    pub pages: u64,
}

impl Tally {
    pub fn papers(&self) -> u64 {
        self.lists + self.sets + self.pages
    }

    pub fn meet(&mut self, what: &str) {
        match self.met.get_mut(what) {
            Some(count) => *count += 1,
            None => _ = self.met.insert(what.to_string(), 1),
        }
    }

    /// Fixed papers meet what they were made for, which does not count.
    pub fn forget_met(&mut self) {
        self.met.clear();
    }

    fn add_class(&mut self, class: &'static str) {
        match self.classes.iter_mut().find(|(other, _)| *other == class) {
            Some((_, count)) => *count += 1,
            None => self.classes.push((class, 1)),
        }
    }

    /// Counts one check of a list of so many places, and its fault.
    pub fn count_list(&mut self, class: &'static str, word: u64, places: usize) {
        self.lists += 1;
        self.add_class(class);
        match fault_number(word) {
            0 => {}
            LIST if places > 512 => self.meet("list: fault 16, 513 places or more"),
            LIST if places == 0 => self.meet("list: fault 16, no place"),
            LIST => self.meet("list: fault 16"),
            number => self.meet(&format!("list: fault {number}")),
        }
    }

    /// Counts one check of a set, and its fault.
    pub fn count_set(&mut self, class: &'static str, word: u64, set: Set) {
        self.sets += 1;
        self.add_class(class);
        match fault_number(word) {
            0 => {}
            SET if set.is_empty() => self.meet("set: fault 17, empty"),
            SET => self.meet("set: fault 17, a bench that the head lacks"),
            number => self.meet(&format!("set: fault {number}")),
        }
    }

    /// Counts one check of a page, and a fault that is not the page's own.
    pub fn count_page(&mut self, class: &'static str, word: u64) {
        self.pages += 1;
        self.add_class(class);
        match fault_number(word) {
            0 | SET | SHARED => {}
            number => self.meet(&format!("page: fault {number}")),
        }
    }

    fn times(&self, what: &str) -> u64 {
        self.met.get(what).copied().unwrap_or(0)
    }

    /// Every kind that is wanted.
    fn wanted() -> Vec<String> {
        let of = |paper| FAULTS.map(|number| format!("{paper}: fault {number}"));
        let kinds = WANTED.iter().chain(&PAGE_WANTED).map(|kind| kind.to_string());
        kinds.chain(of("list")).chain(of("set")).chain(of("page")).collect()
    }

    /// What was met too seldom.
    pub fn too_seldom(&self) -> Vec<String> {
        let rows = Tally::wanted().into_iter().map(|what| (self.times(&what), what));
        rows.filter(|&(met, _)| met < LEAST).map(|(met, what)| format!("{what}: {met}")).collect()
    }

    pub fn print(&self) {
        println!("\n{:<64} {:>9}", "class", "calls");
        for (name, count) in &self.classes {
            println!("{name:<64} {count:>9}");
        }
        println!("\n{:<64} {:>9}", "met by random sheets", "times");
        for what in Tally::wanted() {
            println!("{what:<64} {:>9}", self.times(&what));
        }
        println!();
    }
}
