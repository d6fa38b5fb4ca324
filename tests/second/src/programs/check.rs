//! One sheet through the three programs and through the second implementation. The first difference
//! ends the run.

use crate::process::{self, Feed};
use crate::tally::Tally;
use second::codec::door::Codec;
use second::planner::algorithm::Planner;
use second::rng::Rng;
use second::{hex, printed};
use std::path::{Path, PathBuf};
use std::process::exit;
use std::process::Command;

const ROOT: &str = concat!(env!("CARGO_MANIFEST_DIR"), "/../..");

/// The programs of crates/*/out, and the scripts that run them.
const PROGRAMS: [&str; 3] = ["bay", "show", "best"];

pub struct Check {
    pub rng: Rng,
    pub tally: Tally,
    planner: Planner,
    codec: Codec,
    programs: [PathBuf; 3],
    seed: u64,
    class: &'static str,
}

impl Check {
    pub fn new(seed: u64) -> Check {
        Check {
            rng: Rng::new(seed),
            tally: Tally::default(),
            planner: Planner::new(),
            codec: Codec::default(),
            programs: PROGRAMS.map(process::proved),
            seed,
            class: "",
        }
    }

    /// The class that the next sheets belong to.
    pub fn class(&mut self, class: &'static str) {
        self.class = class;
    }

    /// Runs the programs on a sheet; what they print, in the order of `PROGRAMS`.
    pub fn sheet(&mut self, sheet: &[u8], feed: Feed) -> [String; 3] {
        self.tally.count_sheet(self.class);
        let texts = self.texts(sheet);
        for ((program, path), text) in PROGRAMS.into_iter().zip(&self.programs).zip(&texts) {
            let mut command = Command::new(path);
            self.prints(&mut command, sheet, feed, text);
            self.expect("no sheet meets fault 10", !text.starts_with("fault 10 "), sheet);
            self.tally.count_text(program, text);
        }
        texts
    }

    /// Runs the scripts from the folder samples/, on a file of it and on standard input.
    pub fn scripts(&mut self, file: &str, sheet: &[u8]) {
        self.tally.count_sheet(self.class);
        let texts = self.texts(sheet);
        let folder = Path::new(ROOT).join("samples");
        for (program, text) in PROGRAMS.into_iter().zip(&texts) {
            for arguments in [&[file][..], &[]] {
                let mut command = Command::new(folder.join("..").join(program));
                command.args(arguments).current_dir(&folder);
                let input = if arguments.is_empty() { sheet } else { b"" };
                self.prints(&mut command, input, Feed::AtOnce, text);
            }
        }
    }

    fn texts(&mut self, sheet: &[u8]) -> [String; 3] {
        [
            printed::bay(&mut self.planner, sheet),
            printed::show(&mut self.codec, sheet),
            printed::best(&mut self.planner, sheet),
        ]
    }

    /// The program ends with status 0, prints this text, and says nothing else.
    fn prints(&self, command: &mut Command, input: &[u8], feed: Feed, text: &str) {
        let output = match process::run(command, input, feed) {
            Ok(output) => output,
            Err(error) => self.fail(&format!("{command:?} cannot be run: {error}"), input),
        };
        let same = output.stdout == text.as_bytes();
        if !same || !output.status.success() || !output.stderr.is_empty() {
            let found = String::from_utf8_lossy(&output.stdout);
            let said = String::from_utf8_lossy(&output.stderr);
            let status = output.status;
            let report = format!(
                "{command:?}, {feed:?}: {status}, text {}\nprinted:\n{found}\nexpected:\n{text}\n\
                 standard error:\n{said}",
                if same { "as expected" } else { "differs" }
            );
            self.fail(&report, input);
        }
    }

    pub fn expect(&self, what: &str, holds: bool, sheet: &[u8]) {
        if !holds {
            self.fail(&format!("{what}: not so"), sheet);
        }
    }

    fn fail(&self, report: &str, sheet: &[u8]) -> ! {
        self.tally.print();
        println!("programs: FAILED, class \"{}\", seed {}\n{report}", self.class, self.seed);
        println!("sheet {}", hex::print(sheet));
        exit(1)
    }
}
