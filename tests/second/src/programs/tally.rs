//! How many sheets of each class were met, and what was printed for them.

use std::collections::BTreeMap;

/// A run that meets one kind of text less often has not tested it.
const LEAST: u64 = 3;

/// The faults of a sheet. "No sheet meets fault 10".
const FAULTS: [u32; 13] = [1, 2, 3, 4, 5, 6, 7, 8, 9, 11, 12, 14, 15];

#[derive(Default)]
pub struct Tally {
    pub sheets: u64,
    classes: Vec<(&'static str, u64)>,
    met: BTreeMap<String, u64>,
    longest: BTreeMap<&'static str, usize>,
}

/// The kinds of text that must be met: each answer, each fault of a sheet.
fn wanted() -> Vec<String> {
    let answers = [
        "bay: plan, bench 0 the fullest",
        "bay: plan, another bench the fullest",
        "bay: long",
        "bay: none",
        "show: sheet",
        "show: booked sheet",
        "show: sheet with check-only jobs",
        "best: target 0",
        "best: target above 0",
    ];
    let answers = answers.map(String::from);
    let faults = FAULTS.into_iter().flat_map(|number| {
        ["bay", "show", "best"].map(|program| format!("{program}: fault {number}"))
    });
    answers.into_iter().chain(faults).collect()
}

/// The kind of a text: its first word; of a fault also the number, of a plan also the fullest
/// bench, behind two numbers, of a best target whether it is 0; a sheet's head is a number, and its
/// bookings have lines of their own. Jobs of 0 minutes come before the bookings.
fn kind(text: &str) -> String {
    let mut words = text.split_whitespace();
    match words.next() {
        Some("fault") => format!("fault {}", words.next().unwrap_or("")),
        Some("best") if words.next() == Some("0") => "target 0".to_string(),
        Some("best") => "target above 0".to_string(),
        Some("plan") if words.nth(2) == Some("0") => "plan, bench 0 the fullest".to_string(),
        Some("plan") => "plan, another bench the fullest".to_string(),
        Some(word) if word.parse::<u64>().is_err() => word.to_string(),
        _ if text.contains(": 0 minutes, ") => "sheet with check-only jobs".to_string(),
        _ if text.contains(" booked\n") => "booked sheet".to_string(),
        _ => "sheet".to_string(),
    }
}

impl Tally {
    pub fn count_sheet(&mut self, class: &'static str) {
        self.sheets += 1;
        match self.classes.iter_mut().find(|(name, _)| *name == class) {
            Some((_, count)) => *count += 1,
            None => self.classes.push((class, 1)),
        }
    }

    pub fn count_text(&mut self, program: &'static str, text: &str) {
        *self.met.entry(format!("{program}: {}", kind(text))).or_default() += 1;
        let longest = self.longest.entry(program).or_default();
        *longest = text.len().max(*longest);
    }

    fn times(&self, kind: &str) -> u64 {
        self.met.get(kind).copied().unwrap_or(0)
    }

    /// The kinds of text that were met too seldom.
    pub fn too_seldom(&self) -> Vec<String> {
        let rows = wanted().into_iter().map(|kind| (self.times(&kind), kind));
        rows.filter(|&(met, _)| met < LEAST).map(|(met, kind)| format!("{kind}: {met}")).collect()
    }

    pub fn print(&self) {
        println!("\n{:<44} {:>9}", "class", "sheets");
        for (name, count) in &self.classes {
            println!("{name:<44} {count:>9}");
        }
        println!("\n{:<44} {:>9}", "printed", "times");
        for kind in wanted() {
            println!("{kind:<44} {:>9}", self.times(&kind));
        }
        for (program, bytes) in &self.longest {
            println!("{:<44} {bytes:>9}", format!("{program}: bytes of the longest text"));
        }
        println!();
    }
}
