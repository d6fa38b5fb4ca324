//! Hands lists, sets and pages of sets of random sheets to the second planner's checks, has each
//! answer judged, and, with the feature `library`, sets the static library against it: answers and
//! tables, byte by byte. Our own plans and blocking sets are among them, and pass.
//!
//! Arguments: the seed (default 1) and the least number of lists, sets and pages (default 700,000).

mod check_library;
mod checking;
// Only planning and the best target, for lists and sets of our own.
#[allow(dead_code)]
mod best_library;
#[allow(dead_code)]
mod library;

use checking::Checks;
use second::arguments;
use std::{process::ExitCode, time::Instant};

const PAPERS: u64 = 700_000;
/// Rounds that a run has at least, so that it meets each kind often enough; 700,000 papers.
const ROUNDS: u64 = 60;

fn main() -> ExitCode {
    let (seed, papers) = match arguments::seed_and_sheets("checks", PAPERS) {
        Ok(arguments) => arguments,
        Err(code) => return code,
    };
    let start = Instant::now();
    println!("checks: seed {seed}");
    let mut checks = Checks::new(seed);
    checking::fixed::all(&mut checks);
    checking::extremes::all(&mut checks);
    checks.tally.forget_met();
    let mut rounds = 0;
    while rounds < ROUNDS || checks.tally.papers() < papers {
        rounds += 1;
        checking::sets::round(&mut checks);
        checking::lists::round(&mut checks);
        checking::pages::round(&mut checks);
        checking::own::round(&mut checks);
        checking::refused::round(&mut checks);
    }
    checks.tally.print();
    let too_seldom = checks.tally.too_seldom();
    if !too_seldom.is_empty() {
        println!("checks: FAILED, seed {seed}, met too seldom: {}", too_seldom.join("; "));
        return ExitCode::FAILURE;
    }
    let subject = if library::LINKED {
        "library and second planner agree, and the judge agrees,"
    } else {
        "the judge agrees with the second planner (library not linked)"
    };
    println!(
        "checks: {subject} on all {} lists, {} sets and {} pages (seed {seed}, {:.1} s)",
        checks.tally.lists,
        checks.tally.sets,
        checks.tally.pages,
        start.elapsed().as_secs_f64()
    );
    ExitCode::SUCCESS
}
