//! Plans random sheets by the second planner, finds best targets, compares lists of places, has
//! each answer judged, and, with the feature `library`, sets the static library against it: answers
//! and tables, byte by byte.
//!
//! Arguments: the seed (default 1) and the least number of sheets (default 100,000).

mod best;
mod best_kinds;
mod best_library;
mod best_refused;
mod check;
mod check_only;
mod classes;
mod compare;
mod compare_kinds;
mod fixed;
mod fixed_best;
mod fixed_check_only;
mod fixed_fullest;
mod kinds;
mod library;
mod planned;
mod refused;
mod tally;

use check::Check;
use second::arguments;
use std::{process::ExitCode, time::Instant};

const SHEETS: u64 = 100_000;
/// Rounds that a run has at least, so that it meets each class often enough; 75,000 sheets.
const ROUNDS: u64 = 18;

fn main() -> ExitCode {
    let (seed, sheets) = match arguments::seed_and_sheets("plans", SHEETS) {
        Ok(arguments) => arguments,
        Err(code) => return code,
    };
    let start = Instant::now();
    println!("plans: seed {seed}");
    let mut check = Check::new(seed);
    all(&mut check, sheets);
    check.tally.print();
    let too_seldom = check.tally.too_seldom();
    if !too_seldom.is_empty() {
        println!("plans: FAILED, seed {seed}, met too seldom: {}", too_seldom.join("; "));
        return ExitCode::FAILURE;
    }
    let subject = if library::LINKED {
        "library and second planner agree, and the judge agrees,"
    } else {
        "the judge agrees with the second planner (library not linked)"
    };
    println!(
        "plans: {subject} on all {} sheets, {} comparisons and {} best targets \
         (seed {seed}, {:.1} s)",
        check.tally.sheets,
        check.tally.comparisons,
        check.tally.searches,
        start.elapsed().as_secs_f64()
    );
    ExitCode::SUCCESS
}

/// The fixed sheets, then rounds of random ones.
fn all(check: &mut Check, sheets: u64) {
    fixed::all(check);
    fixed_fullest::all(check);
    fixed_check_only::all(check);
    fixed_best::all(check);
    compare::fixed(check);
    check.tally.forget_met();
    let mut rounds = 0;
    while rounds < ROUNDS || check.tally.sheets < sheets {
        rounds += 1;
        classes::round(check);
        check_only::round(check);
        refused::round(check);
        compare::round(check);
        best::round(check);
        best_refused::round(check);
    }
}
