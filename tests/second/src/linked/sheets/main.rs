//! Sets the static library against the second codec, sheet by sheet: answers, tables and outputs,
//! byte by byte.
//!
//! Arguments: the seed (default 1) and the least number of sheets (default 400,000).

mod check;
mod fixed_bookings;
mod fixed_minutes;
mod fixed_reading;
mod fixed_writing;
mod kinds;
mod laws;
mod library;
mod reading;
mod several_faults;
mod tally;
mod writing;

use check::Check;
use second::arguments;
use std::{process::ExitCode, time::Instant};

const SHEETS: u64 = 400_000;
/// Rounds of random sheets that a run has at least, so that it meets each fault often enough.
const ROUNDS: u64 = 40;

fn main() -> ExitCode {
    let (seed, sheets) = match arguments::seed_and_sheets("sheets", SHEETS) {
        Ok(arguments) => arguments,
        Err(code) => return code,
    };
    let start = Instant::now();
    println!("sheets: seed {seed}");
    let mut check = Check::new(seed);
    fixed_reading::all(&mut check);
    fixed_writing::all(&mut check);
    fixed_bookings::all(&mut check);
    fixed_minutes::all(&mut check);
    let mut rounds = 0;
    while rounds < ROUNDS || check.tally.total() < sheets {
        reading::round(&mut check);
        writing::round(&mut check);
        laws::round(&mut check);
        rounds += 1;
    }
    check.tally.print();
    let too_seldom = check.tally.too_seldom();
    if !too_seldom.is_empty() {
        println!("sheets: FAILED, seed {seed}, met too seldom: {}", too_seldom.join("; "));
        return ExitCode::FAILURE;
    }
    println!(
        "sheets: library and second codec agree on all {} sheets, {} read and {} written \
         (seed {seed}, {:.1} s)",
        check.tally.total(),
        check.tally.total_read(),
        check.tally.total_written(),
        start.elapsed().as_secs_f64()
    );
    ExitCode::SUCCESS
}
