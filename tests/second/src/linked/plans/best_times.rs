//! Times of finding the best targets of full sheets: the second planner, and, with the feature
//! `library`, the static library beside it. Both search the same bytes in the same run, in turns,
//! and plan the sheet with the target that they found: a search takes so many times one plan.

mod best_library;
// Only planning is timed.
#[allow(dead_code)]
mod library;
mod timed_sheets;
mod timing;

use second::codec::door::Codec;
use second::gen::day::Day;
use second::lent::empty::Empty;
use second::lent::tables::Tables;
use second::planner::algorithm::Planner;
use second::planner::door::{self, ANSWER_ENTRIES, BEST, BEST_ENTRIES, PLAN};
use std::hint::black_box;
use timing::{least, microseconds, time, WARM_UP};

const SAMPLES: usize = 15;

/// The library and the second planner, on tables of their own.
struct Pair {
    planner: Planner,
    found: Tables<BEST_ENTRIES>,
    expected: Tables<BEST_ENTRIES>,
    planned: Tables<ANSWER_ENTRIES>,
}

impl Pair {
    /// The library's result word, if it is linked.
    fn library(&mut self, sheet: &[u8]) -> Option<u64> {
        best_library::best(black_box(sheet), black_box(self.found.all()), Empty::Pointer)
    }

    fn second(&mut self, sheet: &[u8]) -> u64 {
        let [places, loads, answer] = black_box(self.expected.all());
        door::best(&mut self.planner, black_box(sheet), places, loads, answer)
    }

    fn library_plan(&mut self, sheet: &[u8]) -> Option<u64> {
        library::plan(black_box(sheet), black_box(self.planned.all()), Empty::Pointer)
    }

    fn second_plan(&mut self, sheet: &[u8]) -> u64 {
        let [places, loads, answer] = black_box(self.planned.all());
        door::plan(&mut self.planner, black_box(sheet), places, loads, answer)
    }

    /// The target and the number of targets run, once the two have been held against each other.
    fn best(&mut self, name: &str, sheet: &[u8]) -> (u64, u64) {
        assert_eq!(self.second(sheet), BEST, "{name}: no best target");
        if let Some(found) = self.library(sheet) {
            assert_eq!(found, BEST, "{name}: the result words differ");
            assert_eq!(self.found.all(), self.expected.all(), "{name}: the tables differ");
        }
        let [target, _, _, _, runs] = self.expected.answer();
        (target, runs)
    }

    fn print(&mut self, name: &str, sheet: &[u8]) {
        let (target, runs) = self.best(name, sheet);
        let at_target = with_target(sheet, target);
        assert_eq!(self.second_plan(&at_target), PLAN, "{name}: no plan");
        let times: [_; 4] = least(SAMPLES, |index| match index {
            0 => time(|| self.second(sheet)),
            1 => time(|| self.second_plan(&at_target)),
            2 => time(|| self.library(sheet)),
            _ => time(|| self.library_plan(&at_target)),
        });
        let [second, second_plan, library, library_plan] = times.map(microseconds);
        print!("{name:<24} {target:>8} {runs:>5} {second:>11.1} {:>8.1}", second / second_plan);
        if library::LINKED {
            let over_plan = library / library_plan;
            print!(" {library:>11.1} {over_plan:>8.1} {:>7.2}", library / second);
        }
        println!();
    }
}

fn with_target(sheet: &[u8], target: u64) -> Vec<u8> {
    let mut codec = Codec::default();
    let mut day = Day::of(codec.read(sheet).expect("the sheet is accepted"));
    day.head.target = target;
    day.draft().bytes()
}

fn print_heading() {
    println!("best targets of full sheets; best of {SAMPLES} after {WARM_UP}, microseconds;");
    println!("x plan: how many times as long as planning with that target");
    print!("{:<24} {:>8} {:>5} {:>11} {:>8}", "", "target", "runs", "second", "x plan");
    if library::LINKED {
        println!(" {:>11} {:>8} {:>7}", "library", "x plan", "ratio");
    } else {
        println!(" (library not linked)");
    }
}

fn main() {
    print_heading();
    let mut pair = Pair {
        planner: Planner::new(),
        found: Tables::new(),
        expected: Tables::new(),
        planned: Tables::new(),
    };
    // Two sheets of one name differ in their own targets alone, which a search does not look at.
    let mut sheets = timed_sheets::all();
    sheets.dedup_by_key(|&mut (name, _)| name);
    for (name, sheet) in sheets {
        pair.print(name, &sheet);
    }
}
