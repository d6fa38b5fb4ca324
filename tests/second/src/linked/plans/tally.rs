//! How many sheets of each class were met, and what their runs did.

use crate::compare_kinds;
use second::codec::door::fault_number;
use second::codec::fault::Fault;
use second::planner::algorithm::Counts;
use second::planner::best::Best;
use second::planner::door::{LONG, PLAN};
use std::collections::HashMap;

/// A run whose random sheets meet one of these less often has not tested it.
const LEAST: u64 = 100;

/// What is wanted of sheets that are planned, and of best targets.
const WANTED: [&str; 99] = [
    "plan at once",
    "plan after moves",
    "none of a crowded component",
    "none at once",
    "none after moves",
    "long",
    "fault 1",
    "fault 2",
    "fault 3",
    "fault 4",
    "fault 5",
    "fault 6",
    "fault 7",
    "fault 8",
    "fault 9",
    "fault 11",
    "fault 12",
    "fault 13",
    "fault 14",
    "fault 15",
    "plan with bookings",
    "none with bookings",
    "long with bookings",
    "plan with a booking above T",
    "none with a booking above T",
    "none with a booking above the bound",
    "long with a booking above T",
    "plan with check-only jobs",
    "none with check-only jobs",
    "long with check-only jobs",
    "plan with check-only jobs alone",
    "none with check-only jobs alone",
    "plan with check-only jobs alone, T = 0",
    "none with check-only jobs alone, T = 0",
    "long with check-only jobs, T = 0",
    "plan with a check-only job on three benches or more",
    "plan with a check-only job that moved",
    "fullest bench above 0",
    "fullest bench above 0, after moves",
    "fullest bench with others as full",
    "fullest bench above 0, with others as full",
    "fullest bench with others as full, after moves",
    "fullest bench with nothing to do, of several",
    "fullest bench booked",
    "fullest bench booked, without a job",
    "fullest bench booked, one as full not",
    "fullest bench not booked, one as full is",
    "fullest bench with fewer jobs",
    "fullest bench by its booking",
    "run with a level above 1",
    "run with a level above 4",
    "run with a fake orientation",
    "run with Rule 1",
    "run with Rule 2",
    "run with peeled rocks",
    "plan with a neutral tree",
    "plan with a neutral cycle",
    "run with 100 moves or more",
    "full sheet",
    "full sheet with bookings",
    "full sheet with check-only jobs alone",
    "an assignment within T, by search",
    "no assignment within T, by search",
    "an assignment within T, planted",
    "best: target 0",
    "best: the start",
    "best: between 0 and the start",
    "best: the last run is refused",
    "best: the last run is its plan",
    "best: one below is long",
    "best: one below is none",
    "best: below the best possible largest load",
    "best: at the best possible largest load",
    "best: no job, no booking",
    "best: bookings alone",
    "best: check-only jobs alone",
    "best: with check-only jobs",
    "best: with bookings",
    "best: plan after moves",
    "best: fullest bench above 0",
    "best: another plan than that of the start",
    "best: 20 runs or more",
    "best: full sheet",
    "best: full sheet with bookings",
    "best: full sheet with check-only jobs alone",
    "best: fault 1",
    "best: fault 2",
    "best: fault 3",
    "best: fault 4",
    "best: fault 5",
    "best: fault 6",
    "best: fault 7",
    "best: fault 8",
    "best: fault 9",
    "best: fault 11",
    "best: fault 12",
    "best: fault 13",
    "best: fault 14",
    "best: fault 15",
];

#[derive(Default)]
pub struct Tally {
    classes: Vec<(&'static str, u64)>,
    met: HashMap<String, u64>,
    pub sheets: u64,
    pub comparisons: u64,
    pub searches: u64,
    /// Targets run by the searches.
    targets: u64,
    most_targets: u64,
    moves: u64,
    most_moves: u64,
    explorations: u64,
    rounds: u64,
    highest_level: usize,
}

impl Tally {
    pub fn meet(&mut self, what: &str) {
        match self.met.get_mut(what) {
            Some(count) => *count += 1,
            None => _ = self.met.insert(what.to_string(), 1),
        }
    }

    fn add_class(&mut self, class: &'static str) {
        match self.classes.iter_mut().find(|(other, _)| *other == class) {
            Some((_, count)) => *count += 1,
            None => self.classes.push((class, 1)),
        }
    }

    /// Fixed sheets meet what they were made for, which does not count.
    pub fn forget_met(&mut self) {
        self.met.clear();
    }

    /// Counts one call of planning: its result word, the moves made, and what the run did.
    pub fn count_plan(&mut self, class: &'static str, word: u64, moves: u64, counts: &Counts) {
        self.sheets += 1;
        self.add_class(class);
        match (fault_number(word), word) {
            (0, LONG) => self.meet("long"),
            (0, PLAN) => self.meet(if moves == 0 { "plan at once" } else { "plan after moves" }),
            (0, _) if counts.explored.explorations == 0 => self.meet("none of a crowded component"),
            (0, _) => self.meet(if moves == 0 { "none at once" } else { "none after moves" }),
            (number, _) => self.meet(&format!("fault {number}")),
        }
        self.count_run(moves, counts);
    }

    fn count_run(&mut self, moves: u64, counts: &Counts) {
        let explored = &counts.explored;
        let did = [
            ("run with a level above 1", explored.highest_level > 1),
            ("run with a level above 4", explored.highest_level > 4),
            ("run with a fake orientation", explored.fakes > 0),
            ("run with Rule 1", explored.rule_1 > 0),
            ("run with Rule 2", explored.rule_2 > 0),
            ("run with peeled rocks", counts.peeled > 0),
            ("plan with a neutral tree", counts.settled.trees > 0),
            ("plan with a neutral cycle", counts.settled.cycles > 0),
            ("run with 100 moves or more", moves >= 100),
        ];
        for (what, _) in did.into_iter().filter(|&(_, holds)| holds) {
            self.meet(what);
        }
        self.moves += moves;
        self.most_moves = self.most_moves.max(moves);
        self.explorations += explored.explorations;
        self.rounds += explored.rounds;
        self.highest_level = self.highest_level.max(explored.highest_level);
    }

    /// Counts one search for the best target.
    pub fn count_search(&mut self, class: &'static str, best: Result<Best, Fault>) {
        self.searches += 1;
        self.add_class(class);
        match best {
            Err(Fault { number, .. }) => self.meet(&format!("best: fault {number}")),
            Ok(Best { runs, .. }) => {
                self.targets += runs;
                self.most_targets = self.most_targets.max(runs);
            }
        }
    }

    /// Counts one comparison of these kinds.
    pub fn count_comparison(&mut self, class: &'static str, kinds: &[String]) {
        self.comparisons += 1;
        self.add_class(class);
        kinds.iter().for_each(|kind| self.meet(kind));
    }

    fn times(&self, what: &str) -> u64 {
        self.met.get(what).copied().unwrap_or(0)
    }

    fn wanted() -> Vec<String> {
        WANTED.iter().map(|kind| kind.to_string()).chain(compare_kinds::wanted()).collect()
    }

    /// What was met too seldom.
    pub fn too_seldom(&self) -> Vec<String> {
        let rows = Tally::wanted().into_iter().map(|what| (self.times(&what), what));
        rows.filter(|&(met, _)| met < LEAST).map(|(met, what)| format!("{what}: {met}")).collect()
    }

    pub fn print(&self) {
        println!("\n{:<80} {:>9}", "class", "calls");
        for (name, count) in &self.classes {
            println!("{name:<80} {count:>9}");
        }
        println!("\n{:<80} {:>9}", "met by random sheets", "times");
        for what in Tally::wanted() {
            println!("{what:<80} {:>9}", self.times(&what));
        }
        println!(
            "\n{} searches run {} targets, most in one search {}",
            self.searches, self.targets, self.most_targets
        );
        println!(
            "{} moves, most in one run {}; {} explorations of {} rounds; highest level {}\n",
            self.moves, self.most_moves, self.explorations, self.rounds, self.highest_level
        );
    }
}
