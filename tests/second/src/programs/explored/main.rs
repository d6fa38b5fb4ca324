//! Runs the program `explored` on sheets, and compares what it prints with what the second planner's
//! last exploration sees, byte by byte. It is that of crates/explored/out; YINQOCHA_PROGRAMS names
//! another folder.
//!
//! Arguments: the seed (default 1) and the least number of sheets (default 1000).

#[path = "../process.rs"]
mod process;
mod view;

use process::Feed;
use second::codec::door::Codec;
use second::gen::bay::days;
use second::gen::damage::{damage, DAMAGES};
use second::gen::day::Day;
use second::rng::Rng;
use second::{arguments, hex};
use std::collections::BTreeMap;
use std::fs;
use std::path::PathBuf;
use std::process::{exit, Command, ExitCode};

const ROOT: &str = concat!(env!("CARGO_MANIFEST_DIR"), "/../..");
const SHEETS: u64 = 1000;
/// A run that meets one of these less often has not tested it.
const LEAST: u64 = 3;
const WANTED: [&str; 10] = [
    "fault",
    "long",
    "crowded component",
    "plan",
    "none",
    "none after a move",
    "level 1",
    "level 2",
    "conflict set only",
    "neutral heavy job",
];

struct Check {
    rng: Rng,
    seed: u64,
    codec: Codec,
    program: PathBuf,
    sheets: u64,
    met: BTreeMap<&'static str, u64>,
}

fn main() -> ExitCode {
    let (seed, sheets) = match arguments::seed_and_sheets("explored", SHEETS) {
        Ok(arguments) => arguments,
        Err(code) => return code,
    };
    let program = process::proved("explored");
    let (rng, codec, met) = (Rng::new(seed), Codec::default(), BTreeMap::new());
    let mut check = Check { rng, seed, codec, program, sheets: 0, met };
    let sample = fs::read(PathBuf::from(ROOT).join("samples/levels.sheet"));
    check.sheet(&sample.expect("the sample is there"), Feed::Pieces(100));
    // One byte more than a sheet may have.
    check.sheet(&[0; 65_537], Feed::AtOnce);
    while check.sheets < sheets {
        check.round();
    }
    for kind in WANTED {
        println!("{kind:<44} {:>9}", check.times(kind));
    }
    if let Some(kind) = WANTED.into_iter().find(|kind| check.times(kind) < LEAST) {
        println!("explored: FAILED, seed {seed}, met too seldom: {kind}");
        return ExitCode::FAILURE;
    }
    println!("explored: prints what the second planner sees on all {} sheets", check.sheets);
    ExitCode::SUCCESS
}

impl Check {
    fn times(&self, kind: &str) -> u64 {
        self.met.get(kind).copied().unwrap_or(0)
    }

    /// Small days, larger ones, one with any fields, and one that is damaged.
    fn round(&mut self) {
        for _ in 0..20 {
            let size = days::tiny(&mut self.rng);
            let day = days::any(&mut self.rng, size);
            self.sheet(&day.draft().bytes(), Feed::AtOnce);
        }
        for _ in 0..10 {
            let size = days::middle(&mut self.rng);
            let day = days::any(&mut self.rng, size);
            self.sheet(&day.draft().bytes(), Feed::AtOnce);
        }
        let count = self.rng.below(40);
        let day = Day::random(&mut self.rng, count);
        self.sheet(&day.draft().bytes(), Feed::AtOnce);
        let size = days::tiny(&mut self.rng);
        let mut draft = days::any(&mut self.rng, size).draft();
        let number = self.rng.pick(&DAMAGES);
        damage(&mut self.rng, &mut draft, number);
        self.sheet(&draft.bytes(), Feed::AtOnce);
    }

    /// The program ends with status 0, prints the view, and says nothing else.
    fn sheet(&mut self, sheet: &[u8], feed: Feed) {
        self.sheets += 1;
        let text = view::lines(&mut self.codec, sheet);
        let mut command = Command::new(&self.program);
        let output = match process::run(&mut command, sheet, feed) {
            Ok(output) => output,
            Err(error) => self.fail(&format!("{command:?} cannot be run: {error}"), sheet),
        };
        let same = output.stdout == text.as_bytes();
        if !same || !output.status.success() || !output.stderr.is_empty() {
            let found = String::from_utf8_lossy(&output.stdout);
            let said = String::from_utf8_lossy(&output.stderr);
            let status = output.status;
            let report =
                format!("{status}\nprinted:\n{found}\nexpected:\n{text}\nstandard error:\n{said}");
            self.fail(&report, sheet);
        }
        self.count(&text);
    }

    fn fail(&self, report: &str, sheet: &[u8]) -> ! {
        println!("explored: FAILED, seed {}\n{report}\nsheet {}", self.seed, hex::print(sheet));
        exit(1)
    }

    fn count(&mut self, text: &str) {
        for kind in WANTED.into_iter().filter(|kind| shows(text, kind)) {
            *self.met.entry(kind).or_default() += 1;
        }
    }
}

/// Whether a text is of this kind.
fn shows(text: &str, kind: &str) -> bool {
    let of = |word: &str| {
        let word = word.to_string();
        let lines = text.lines().map(|line| line.split(' ').collect::<Vec<_>>());
        lines.filter(move |fields| fields[0] == word)
    };
    let explored = of("bench").next().is_some();
    match kind {
        "fault" | "long" | "plan" => of(kind).next().is_some(),
        "none" => explored && of("none").next().is_some(),
        "none after a move" => explored && of("none").any(|fields| fields[1] != "0"),
        "crowded component" => !explored && of("none").next().is_some(),
        "level 1" => of("bench").any(|fields| fields[6] == "1"),
        "level 2" => of("bench").any(|fields| fields[6] == "2"),
        "conflict set only" => of("bench").any(|fields| fields[5] != "-" && fields[6] == "-"),
        "neutral heavy job" => explored && of("heavy").any(|fields| fields[5] == "-"),
        _ => unreachable!("no such kind"),
    }
}
