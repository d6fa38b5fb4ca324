//! Runs the programs behind `./bay`, `./show` and `./best` on sheets, and compares what they print
//! with what the second implementation says, byte by byte. They are those of crates/*/out, which `rt
//! ci` and `rt run` make; YINQOCHA_PROGRAMS names one folder with all of them.
//!
//! Arguments: the seed (default 1) and the least number of sheets (default 600).

mod check;
mod fixed;
mod process;
mod random;
mod tally;

use check::Check;
use second::arguments;
use std::{process::ExitCode, time::Instant};

const SHEETS: u64 = 600;

fn main() -> ExitCode {
    let (seed, sheets) = match arguments::seed_and_sheets("programs", SHEETS) {
        Ok(arguments) => arguments,
        Err(code) => return code,
    };
    let start = Instant::now();
    println!("programs: seed {seed}");
    let mut check = Check::new(seed);
    fixed::all(&mut check);
    while check.tally.sheets < sheets {
        random::round(&mut check);
    }
    check.tally.print();
    let too_seldom = check.tally.too_seldom();
    if !too_seldom.is_empty() {
        println!("programs: FAILED, seed {seed}, met too seldom: {}", too_seldom.join("; "));
        return ExitCode::FAILURE;
    }
    println!(
        "programs: all print what the second implementation says on all {} sheets \
         (seed {seed}, {:.1} s)",
        check.tally.sheets,
        start.elapsed().as_secs_f64()
    );
    ExitCode::SUCCESS
}
