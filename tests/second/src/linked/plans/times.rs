//! Times of planning full sheets: the second planner, and, with the feature `library`, the static
//! library beside it. Both are built for release and plan the same bytes in the same run, in turns.
//!
//! With the argument `library` only the static library is timed, and each sheet has one line for
//! tests/side-by-side, see `alone`.

mod alone;
// Only planning is timed.
#[allow(dead_code)]
mod library;
mod thread_time;
mod timed_sheets;
mod timing;

use second::lent::empty::Empty;
use second::lent::tables::Tables;
use second::planner::algorithm::Planner;
use second::planner::door::{self, ANSWER_ENTRIES, PLAN};
use std::env;
use std::hint::black_box;
use std::process::ExitCode;
use timing::{least, microseconds, time, WARM_UP};

const SAMPLES: usize = 50;
/// The entries of the answer table that are compared: the first two, so that a library that does
/// not name the fullest bench yet can be timed too.
const COMPARED: usize = 2;

/// The library and the second planner, on tables of their own.
struct Pair {
    planner: Planner,
    found: Tables<ANSWER_ENTRIES>,
    expected: Tables<ANSWER_ENTRIES>,
}

impl Pair {
    /// The library's result word, if it is linked.
    fn library(&mut self, sheet: &[u8]) -> Option<u64> {
        library::plan(black_box(sheet), black_box(self.found.all()), Empty::Pointer)
    }

    fn second(&mut self, sheet: &[u8]) -> u64 {
        let [places, loads, answer] = black_box(self.expected.all());
        door::plan(&mut self.planner, black_box(sheet), places, loads, answer)
    }

    /// The answer's name, once the two have been held against each other.
    fn answer(&mut self, name: &str, sheet: &[u8]) -> &'static str {
        let word = self.second(sheet);
        if let Some(found) = self.library(sheet) {
            assert_eq!(found, word, "{name}: the result words differ");
            let [found, expected] = [&self.found, &self.expected].map(Tables::answer);
            assert_eq!(found[..COMPARED], expected[..COMPARED], "{name}: the answers differ");
        }
        if word == PLAN {
            "plan"
        } else {
            "none"
        }
    }

    fn print(&mut self, name: &str, sheet: &[u8]) {
        let [library, second] = least(SAMPLES, |index| match index {
            0 => time(|| self.library(sheet)),
            _ => time(|| self.second(sheet)),
        });
        let answer = self.answer(name, sheet);
        let explored = self.planner.counts().explored;
        let (moves, rounds) = (self.expected.answer()[1], explored.rounds);
        print!("{name:<24} {answer} {moves:>7} {rounds:>8} {:>6}", explored.highest_level);
        let [library, second] = [library, second].map(microseconds);
        print!(" {second:>11.1}");
        if library::LINKED {
            print!(" {library:>11.1} {:>7.2}", library / second);
        }
        println!();
    }

    fn print_library(&mut self, name: &str, sheet: &[u8]) {
        self.answer(name, sheet);
        alone::print(name, sheet);
    }
}

fn print_heading() {
    println!("full sheets; best of {SAMPLES} after {WARM_UP}, microseconds");
    print!("{:<29} {:>7} {:>8} {:>6} {:>11}", "", "moves", "rounds", "level", "second");
    println!("{}", if library::LINKED { "     library   ratio" } else { " (library not linked)" });
}

fn main() -> ExitCode {
    let arguments: Vec<String> = env::args().skip(1).collect();
    let arguments: Vec<&str> = arguments.iter().map(String::as_str).collect();
    let print = match arguments[..] {
        [] => Pair::print,
        ["library"] if library::LINKED => Pair::print_library,
        _ => {
            eprintln!("plan_times: no argument, or `library` where the library is linked");
            return ExitCode::from(2);
        }
    };
    if arguments.is_empty() {
        print_heading();
    }
    let mut pair = Pair { planner: Planner::new(), found: Tables::new(), expected: Tables::new() };
    for (name, sheet) in timed_sheets::all() {
        print(&mut pair, name, &sheet);
    }
    ExitCode::SUCCESS
}
