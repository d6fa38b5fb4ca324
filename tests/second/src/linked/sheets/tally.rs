//! How many sheets of each class, of each fault number and of each kind were met.

use crate::kinds::{ALL_CHECK_ONLY, BEGUN_MINUTES, BOOKED, CHECK_ONLY, NO_MINUTES, WIDE_MINUTES};
use second::codec::door::fault_number;
use std::collections::BTreeMap;

/// A run that meets some fault number or kind less often has not tested it.
const LEAST: u64 = 300;

/// Fault numbers 1 to 15, and 0 for none.
const NUMBERS: usize = 16;

/// What reading gives, and what writing gives.
const READ: [usize; 15] = [0, 1, 2, 3, 4, 5, 6, 7, 8, 9, 11, 12, 13, 14, 15];
const WRITTEN: [usize; 9] = [0, 7, 8, 9, 10, 11, 12, 13, 14];

/// The kinds of both, and those of writing alone.
const KINDS: [&str; 3] = [BOOKED, CHECK_ONLY, ALL_CHECK_ONLY];
const REFUSED: [&str; 3] = [NO_MINUTES, BEGUN_MINUTES, WIDE_MINUTES];

/// The calls that read, or those that write.
#[derive(Default)]
struct Calls {
    numbers: [u64; NUMBERS],
    kinds: BTreeMap<&'static str, u64>,
}

impl Calls {
    fn count(&mut self, word: u64, kinds: &[&'static str]) {
        self.numbers[fault_number(word) as usize] += 1;
        for kind in kinds {
            *self.kinds.entry(kind).or_default() += 1;
        }
    }

    fn times(&self, kind: &str) -> u64 {
        self.kinds.get(kind).copied().unwrap_or(0)
    }

    fn total(&self) -> u64 {
        self.numbers.iter().sum()
    }

    /// Those of these answers and kinds that were met too seldom.
    fn too_seldom(&self, what: &str, numbers: &[usize], kinds: &[&str]) -> Vec<String> {
        let numbers =
            numbers.iter().map(|&number| (format!("fault {number}"), self.numbers[number]));
        let kinds = kinds.iter().map(|&kind| (kind.to_string(), self.times(kind)));
        let rows = numbers.chain(kinds).filter(|&(_, met)| met < LEAST);
        rows.map(|(name, met)| format!("{what}, {name}: {met}")).collect()
    }
}

#[derive(Default)]
pub struct Tally {
    classes: Vec<(&'static str, u64)>,
    read: Calls,
    written: Calls,
}

impl Tally {
    pub fn count_read(&mut self, class: &'static str, word: u64, kinds: &[&'static str]) {
        self.read.count(word, kinds);
        self.count(class);
    }

    pub fn count_written(&mut self, class: &'static str, word: u64, kinds: &[&'static str]) {
        self.written.count(word, kinds);
        self.count(class);
    }

    fn count(&mut self, class: &'static str) {
        match self.classes.iter_mut().find(|(name, _)| *name == class) {
            Some((_, count)) => *count += 1,
            None => self.classes.push((class, 1)),
        }
    }

    pub fn total_read(&self) -> u64 {
        self.read.total()
    }

    pub fn total_written(&self) -> u64 {
        self.written.total()
    }

    pub fn total(&self) -> u64 {
        self.total_read() + self.total_written()
    }

    /// What was met too seldom.
    pub fn too_seldom(&self) -> Vec<String> {
        let reading = self.read.too_seldom("reading", &READ, &KINDS);
        let writing = self.written.too_seldom("writing", &WRITTEN, &[KINDS, REFUSED].concat());
        [reading, writing].concat()
    }

    pub fn print(&self) {
        println!("\n{:<44} {:>9}", "class", "sheets");
        for (name, count) in &self.classes {
            println!("{name:<44} {count:>9}");
        }
        let row = |name: &str, read, written| println!("{name:<28} {read:>8} {written:>8}");
        println!("\n{:<28} {:>8} {:>8}", "fault", "reading", "writing");
        row("none", self.read.numbers[0], self.written.numbers[0]);
        for number in 1..NUMBERS {
            row(&number.to_string(), self.read.numbers[number], self.written.numbers[number]);
        }
        for kind in [KINDS, REFUSED].concat() {
            row(kind, self.read.times(kind), self.written.times(kind));
        }
        println!();
    }
}
