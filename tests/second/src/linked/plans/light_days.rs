//! The light days, full sheets of light jobs with a choice, against tests/plans/light.txt: result
//! word and every entry of the three tables, by the second planner, and, with the feature
//! `library`, by the static library.
//!
//! With the argument `write` the library's answers are written to that file instead. With `library`
//! each sheet has one line for tests/side-by-side, see `alone`.

mod alone;
// Only planning, and only the library's processor time.
#[allow(dead_code)]
mod library;
mod thread_time;
#[allow(dead_code)]
mod timing;

use second::lent::tables::Tables;
use second::light_days;
use second::outcome::Outcome;
use second::planner::algorithm::Planner;
use second::planner::door;
use second::stored::differences::{agreeing, differences};
use second::stored::{text, Stored};
use std::path::PathBuf;
use std::process::ExitCode;
use std::{env, fs, io};

const COMMENT: &str = "\
The light days of tests/second/src/light_days.rs, full sheets of light jobs with a choice, and what planning them
left: the result word, and every entry of the tables that were lent, -N for N entries that kept their contents.
The form is told in tests/second/src/stored/mod.rs. Bytes and checksum are those of the sheet: where they differ,
it is the sheet that has changed, not its answer.

Written by `light_days write` with the library as it landed with request S-4, commit 0caf6e9, and never by hand: a
later program must leave the same.";

type Sheets = Vec<(&'static str, Vec<u8>)>;

fn sheets() -> Sheets {
    light_days::all().into_iter().map(|(name, day)| (name, day.draft().bytes())).collect()
}

fn file() -> PathBuf {
    PathBuf::from(env!("CARGO_MANIFEST_DIR")).join("../plans/light.txt")
}

/// Names the file.
fn failed(error: io::Error) -> String {
    format!("tests/plans/light.txt: {error}")
}

fn by_library(sheets: &Sheets) -> Option<Vec<Stored>> {
    let stored = |(name, sheet): &(&str, Vec<u8>)| {
        alone::outcome(sheet).map(|outcome| Stored::new(name, sheet, outcome))
    };
    sheets.iter().map(stored).collect()
}

fn by_second_planner(sheets: &Sheets) -> Vec<Stored> {
    let mut planner = Planner::new();
    let stored = |(name, sheet): &(&str, Vec<u8>)| {
        let mut tables = Tables::new();
        let [places, loads, answer] = tables.all();
        let word = door::plan(&mut planner, sheet, places, loads, answer);
        Stored::new(name, sheet, Outcome::new(word, &tables))
    };
    sheets.iter().map(stored).collect()
}

/// Says what differs from the stored text, which has the sheets `expected`; true if nothing does.
fn compare(who: &str, stored: &str, expected: &[Stored], found: &[Stored]) -> bool {
    let lines = differences(expected, found);
    for line in &lines {
        println!("light_days: {who}: {line}");
    }
    let (agreeing, all) = (agreeing(expected, found), found.len());
    println!("light_days: {who}: {agreeing} of {all} sheets as stored, {} stored", expected.len());
    // Whatever else was changed in the file, were it only the order of its lines.
    let is_as_written = text::print(COMMENT, found) == stored;
    if lines.is_empty() && !is_as_written {
        println!("light_days: {who}: the stored file is not as `write` leaves it");
    }
    is_as_written
}

fn check() -> Result<ExitCode, String> {
    let stored = fs::read_to_string(file()).map_err(failed)?;
    let expected = match text::parse(&stored) {
        Ok(expected) => expected,
        Err(line) => {
            println!("light_days: FAILED, the stored file is not in its form, {line}");
            return Ok(ExitCode::FAILURE);
        }
    };
    let sheets = sheets();
    let compare = |who, found: Vec<Stored>| compare(who, &stored, &expected, &found);
    let second = compare("second planner", by_second_planner(&sheets));
    let library = by_library(&sheets).map(|found| compare("library", found));
    if !second || library == Some(false) {
        println!("light_days: FAILED");
        return Ok(ExitCode::FAILURE);
    }
    let who = match library {
        Some(_) => "library and second planner give",
        None => "the second planner gives (library not linked)",
    };
    println!("light_days: {who} the stored answers on all {} sheets", sheets.len());
    Ok(ExitCode::SUCCESS)
}

fn write() -> Result<ExitCode, String> {
    let found = by_library(&sheets()).ok_or("the library is not linked")?;
    fs::write(file(), text::print(COMMENT, &found)).map_err(failed)?;
    println!("light_days: {} sheets in tests/plans/light.txt", found.len());
    Ok(ExitCode::SUCCESS)
}

fn times() -> Result<ExitCode, String> {
    for (name, sheet) in sheets() {
        alone::print(name, &sheet);
    }
    Ok(ExitCode::SUCCESS)
}

fn main() -> ExitCode {
    let arguments: Vec<String> = env::args().skip(1).collect();
    let arguments: Vec<&str> = arguments.iter().map(String::as_str).collect();
    let done = match arguments[..] {
        [] => check(),
        ["write"] if library::LINKED => write(),
        ["library"] if library::LINKED => times(),
        _ => Err("no argument, or `write` or `library` where the library is linked".to_string()),
    };
    done.unwrap_or_else(|error| {
        eprintln!("light_days: {error}");
        ExitCode::from(2)
    })
}
