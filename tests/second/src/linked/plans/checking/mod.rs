//! One list, set or page of sets through the second planner, through the library where it is linked,
//! and before the judge. Answer tables are compared byte by byte. The first difference ends the run.
//!
//! - `judging`: the judge's part.
//! - `fixed`: hand-worked papers, samples, tables of each length, little stack.
//! - `extremes`: the highest numbers that a sheet has.
//! - `sets`: all sets of small sheets, sets of full sheets.
//! - `lists`: lists of all sorts.
//! - `pages`: all pages of tiny sheets, pages of full sheets, pages with faults, wide ones.
//! - `own`: our own plans and blocking sets, and ones that differ a little.
//! - `refused`: damaged sheets, short tables, and what is no list and no set of the sheet.
//! - `kinds`, `tally`: what was met, and how often.

pub mod extremes;
pub mod fixed;
mod judging;
mod kinds;
pub mod lists;
pub mod own;
pub mod pages;
pub mod refused;
pub mod sets;
mod tally;

use crate::check_library;
use second::codec::door::{entries, entry, fault_number, numbers, Codec, ENTRY_BYTES};
use second::codec::fault::{MINUTES, SET, SHARED};
use second::corpus::{case_of, print_case};
use second::gen::lists::table;
use second::hex;
use second::lent::empty::Empty;
use second::lent::guarded::Guarded;
use second::planner::algorithm::Planner;
use second::planner::door::{self, CHECK_PAGE_ENTRIES, CHECK_PLAN_ENTRIES, CHECK_SET_ENTRIES};
use second::planner::set::Set;
use second::rng::Rng;
use std::process;
use tally::Tally;

pub struct Checks {
    pub rng: Rng,
    pub tally: Tally,
    pub planner: Planner,
    codec: Codec,
    seed: u64,
    class: &'static str,
}

/// What is handed to the checker beside the sheet.
#[derive(Clone, Copy)]
enum Paper<'a> {
    List(&'a [u8]),
    Set(Set),
    Page(&'a [u8]),
}

impl<'a> Paper<'a> {
    /// The table that is lent.
    fn table(self) -> &'a [u8] {
        match self {
            Paper::List(table) | Paper::Page(table) => table,
            Paper::Set(_) => &[],
        }
    }
}

/// A result word, and the entries of the answer table, 0 where it has fewer.
#[derive(Clone, Copy, Debug, PartialEq, Eq)]
pub struct Said {
    pub word: u64,
    pub entries: [u64; 2],
}

impl Checks {
    pub fn new(seed: u64) -> Checks {
        Checks {
            rng: Rng::new(seed),
            tally: Tally::default(),
            planner: Planner::new(),
            codec: Codec::default(),
            seed,
            class: "",
        }
    }

    /// The class that the next papers belong to.
    pub fn class(&mut self, class: &'static str) {
        self.class = class;
    }

    /// The bytes of a table with room for so many entries, exactly or more.
    fn room(&mut self, entries: usize) -> usize {
        let more = if self.rng.one_in(2) { 0 } else { self.rng.below(30) };
        ENTRY_BYTES * entries + more
    }

    /// Checks a list of places, as a table of bytes.
    pub fn list(&mut self, sheet: &[u8], list: &[u8]) -> Said {
        let room = self.room(CHECK_PLAN_ENTRIES);
        self.list_into(sheet, list, room)
    }

    /// Checks a set of benches.
    pub fn set(&mut self, sheet: &[u8], set: Set) -> Said {
        let room = self.room(CHECK_SET_ENTRIES);
        self.set_into(sheet, set, room)
    }

    /// Checks a page of sets, as a table of bytes.
    pub fn page(&mut self, sheet: &[u8], page: &[u8]) -> Said {
        let room = self.room(CHECK_PAGE_ENTRIES);
        self.page_into(sheet, page, room)
    }

    /// Checks a list, with an answer table of so many bytes.
    pub fn list_into(&mut self, sheet: &[u8], list: &[u8], room: usize) -> Said {
        let said = self.check(sheet, Paper::List(list), room);
        self.tally.count_list(self.class, said.word, entries(list));
        if fault_number(said.word) == 0 {
            self.judge_list(sheet, list, said);
        }
        said
    }

    /// Checks a set, with an answer table of so many bytes.
    pub fn set_into(&mut self, sheet: &[u8], set: Set, room: usize) -> Said {
        let said = self.check(sheet, Paper::Set(set), room);
        self.tally.count_set(self.class, said.word, set);
        if fault_number(said.word) == 0 {
            self.judge_set(sheet, set, said);
        }
        said
    }

    /// Checks a page, with an answer table of so many bytes.
    pub fn page_into(&mut self, sheet: &[u8], page: &[u8], room: usize) -> Said {
        let said = self.check(sheet, Paper::Page(page), room);
        self.tally.count_page(self.class, said.word);
        if matches!(fault_number(said.word), 0 | SET | SHARED) {
            self.judge_page(sheet, page, said);
        }
        said
    }

    fn check(&mut self, sheet: &[u8], paper: Paper, room: usize) -> Said {
        let mut expected = Guarded::random(&mut self.rng, room);
        let before = expected.clone();
        let (planner, answer) = (&mut self.planner, expected.inside_mut());
        let word = match paper {
            Paper::List(list) => door::check_plan(planner, sheet, list, answer),
            Paper::Set(set) => door::check_set(planner, sheet, set.0, answer),
            Paper::Page(page) => door::check_page(planner, sheet, page, answer),
        };
        self.set_library_against(sheet, paper, word, before, &expected);
        self.expect("no sheet meets fault 10", fault_number(word) != MINUTES, sheet, paper);
        let said =
            |index| if fault_number(word) == 0 { entry(expected.inside(), index) } else { 0 };
        Said { word, entries: [said(0), said(1)] }
    }

    fn set_library_against(
        &mut self,
        sheet: &[u8],
        paper: Paper,
        word: u64,
        mut found: Guarded,
        expected: &Guarded,
    ) {
        let inputs = [sheet, paper.table()].map(|input| Guarded::holding(&mut self.rng, input));
        let lent = inputs.clone();
        let empty = self.rng.pick(&[Empty::Null, Empty::Pointer]);
        let [lent_sheet, table] = lent.each_ref().map(Guarded::inside);
        let answer = found.inside_mut();
        let library = match paper {
            Paper::List(_) => check_library::check_plan(lent_sheet, table, answer, empty),
            Paper::Set(set) => check_library::check_set(lent_sheet, set.0, answer, empty),
            Paper::Page(_) => check_library::check_page(lent_sheet, table, answer, empty),
        };
        let Some(library) = library else { return };
        if library != word {
            let (library, second) = (words(library), words(word));
            self.fail(&format!("library: {library}\nsecond planner: {second}"), sheet, paper);
        }
        let names = ["the answer table", "the sheet that was lent", "the table that was lent"];
        let pairs = [(&found, expected), (&lent[0], &inputs[0]), (&lent[1], &inputs[1])];
        for (name, (found, expected)) in names.into_iter().zip(pairs) {
            if let Some(at) = found.first_difference(expected) {
                self.fail(&format!("{name} differs first at byte {at}"), sheet, paper);
            }
        }
    }

    pub fn expect_list(&self, what: &str, holds: bool, sheet: &[u8], list: &[u8]) {
        self.expect(what, holds, sheet, Paper::List(list));
    }

    pub fn expect_set(&self, what: &str, holds: bool, sheet: &[u8], set: Set) {
        self.expect(what, holds, sheet, Paper::Set(set));
    }

    pub fn expect_page(&self, what: &str, holds: bool, sheet: &[u8], page: &[u8]) {
        self.expect(what, holds, sheet, Paper::Page(page));
    }

    fn expect(&self, what: &str, holds: bool, sheet: &[u8], paper: Paper) {
        if !holds {
            self.fail(&format!("{what}: not so"), sheet, paper);
        }
    }

    fn fail(&self, report: &str, sheet: &[u8], paper: Paper) -> ! {
        self.tally.print();
        println!("checks: FAILED, class \"{}\", seed {}\n{report}", self.class, self.seed);
        if let Some(case) = case_of(sheet) {
            println!("{}", print_case(&case));
        }
        match paper {
            Paper::List(list) => println!("list {}", hex::print(list)),
            Paper::Set(set) => println!("set {}", print_set(set)),
            Paper::Page(page) => {
                let sets: Vec<String> = numbers(page).map(|set| print_set(Set(set))).collect();
                println!("page {} ({} bytes)", sets.join("; "), page.len());
            }
        }
        println!("sheet {}", hex::print(sheet));
        process::exit(1)
    }
}

/// A result word in words.
fn words(word: u64) -> String {
    match fault_number(word) {
        0 => format!("answer {word}"),
        number => format!("fault {number}, place {}", word as u32),
    }
}

fn print_set(set: Set) -> String {
    format!("{:?}", set.collect::<Vec<usize>>())
}

/// A table of these sets.
pub fn page_table(sets: &[Set]) -> Vec<u8> {
    table(&sets.iter().map(|set| set.0).collect::<Vec<u64>>())
}
