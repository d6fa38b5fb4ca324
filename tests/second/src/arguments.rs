//! The two arguments of the programs that set the product against the second implementation.

use std::{env, process::ExitCode};

const SEED: u64 = 1;

/// The seed (default 1) and the least number of sheets; for an argument that is no number, a
/// message and the exit code 2.
pub fn seed_and_sheets(program: &str, sheets: u64) -> Result<(u64, u64), ExitCode> {
    let argument = |position, default| match env::args().nth(position) {
        None => Ok(default),
        Some(text) => text.parse().map_err(|_| {
            eprintln!("{program}: not a number: {text}");
            ExitCode::from(2)
        }),
    };
    Ok((argument(1, SEED)?, argument(2, sheets)?))
}
