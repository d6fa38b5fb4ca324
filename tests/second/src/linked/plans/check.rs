//! One sheet through the second planner, through the library where it is linked, and before the
//! judge. Tables are compared byte by byte. The first difference ends the run.

mod best;
mod compare;

use crate::kinds::kinds;
use crate::library;
use crate::planned::{words, Planned};
use crate::tally::Tally;
use second::codec::door::{fault_number, Codec, ENTRY_BYTES};
use second::codec::fault::MINUTES;
use second::corpus::{case_of, print_case};
use second::gen::day::Day;
use second::hex;
use second::judge;
use second::lent::empty::Empty;
use second::lent::guarded::Guarded;
use second::planner::algorithm::{Answer, Planner};
use second::planner::door::{self, ANSWER_ENTRIES};
use second::rng::Rng;
use std::process;

/// The most steps of a search for an assignment within T.
const STEPS: u64 = 200_000;

/// Whether some assignment keeps every bench within T.
#[derive(Clone, Copy, Debug, PartialEq, Eq)]
pub enum Rival {
    Unknown,
    /// To be found by search.
    Searched,
    /// The sheet was made from one.
    Planted,
}

pub struct Check {
    pub rng: Rng,
    pub tally: Tally,
    pub planner: Planner,
    codec: Codec,
    seed: u64,
    class: &'static str,
}

/// The bytes of the tables of places, of loads and of the answer.
pub type TableBytes = [usize; 3];

/// A call of the library on a sheet and the three tables; its result word, if it is linked.
type Call = fn(&[u8], [&mut [u8]; 3], Empty) -> Option<u64>;

impl Check {
    pub fn new(seed: u64) -> Check {
        Check {
            rng: Rng::new(seed),
            tally: Tally::default(),
            planner: Planner::new(),
            codec: Codec::default(),
            seed,
            class: "",
        }
    }

    /// The class that the next sheets belong to.
    pub fn class(&mut self, class: &'static str) {
        self.class = class;
    }

    pub fn plan_day(&mut self, day: &Day, rival: Rival) -> Planned {
        self.plan(&day.draft().bytes(), rival)
    }

    /// Plans a sheet, with tables that have room for it, exactly or more.
    pub fn plan(&mut self, sheet: &[u8], rival: Rival) -> Planned {
        let rooms = self.room_for(sheet, ANSWER_ENTRIES);
        self.plan_into(sheet, rooms, rival)
    }

    /// Tables that have room for a sheet and so many entries of the answer, exactly or more.
    fn room_for(&mut self, sheet: &[u8], answer: usize) -> TableBytes {
        let (jobs, benches) = match self.codec.read(sheet) {
            Ok(sheet) => (sheet.jobs().len(), sheet.head().benches as usize),
            Err(_) => (self.rng.below(4), self.rng.below(4)),
        };
        [jobs, benches, answer].map(|entries| {
            let more = if self.rng.one_in(2) { 0 } else { self.rng.below(30) };
            ENTRY_BYTES * entries + more
        })
    }

    /// Plans a sheet, with tables of so many bytes.
    pub fn plan_into(&mut self, sheet: &[u8], rooms: TableBytes, rival: Rival) -> Planned {
        let mut expected = rooms.map(|room| Guarded::random(&mut self.rng, room));
        let before = expected.clone();
        let [places, loads, answer] = expected.each_mut().map(Guarded::inside_mut);
        let word = door::plan(&mut self.planner, sheet, places, loads, answer);
        self.set_library_against(library::plan, sheet, word, before, &expected);
        self.expect("no sheet meets fault 10", fault_number(word) != MINUTES, sheet);
        let planned = Planned::new(self.codec.read(sheet).ok(), word, &expected);
        if let Ok(answer) = planned.answer() {
            self.judge(sheet, &answer, rival);
        }
        let moves = planned.moves();
        self.tally.count_plan(self.class, word, moves, self.planner.counts());
        planned
    }

    fn set_library_against(
        &mut self,
        call: Call,
        sheet: &[u8],
        word: u64,
        mut found: [Guarded; 3],
        expected: &[Guarded; 3],
    ) {
        let input = Guarded::holding(&mut self.rng, sheet);
        let lent = input.clone();
        let empty = self.rng.pick(&[Empty::Null, Empty::Pointer]);
        let tables = found.each_mut().map(Guarded::inside_mut);
        let Some(library) = call(lent.inside(), tables, empty) else { return };
        self.same_word(library, word, sheet);
        let names = ["the table of places", "the table of loads", "the answer table"];
        for (name, (found, expected)) in names.into_iter().zip(found.iter().zip(expected)) {
            self.same_bytes(name, found, expected, sheet);
        }
        self.same_bytes("the sheet lent to the library", &lent, &input, sheet);
    }

    fn judge(&mut self, sheet: &[u8], answer: &Answer, known: Rival) {
        let read = self.codec.read(sheet).expect("an answer is for an accepted sheet");
        let judged = judge::judge(read, answer);
        let kinds = kinds(read, answer);
        let rival = match known {
            Rival::Unknown => None,
            Rival::Planted => Some(true),
            Rival::Searched => judge::has_rival(read, STEPS),
        };
        if let Err(what) = judged {
            self.fail(&format!("the judge refuses {answer:?}: {what}"), sheet);
        }
        if rival == Some(true) && !matches!(answer, Answer::Plan { .. }) {
            self.fail("an assignment within T, and no plan", sheet);
        }
        match (known, rival) {
            (Rival::Planted, _) => self.tally.meet("an assignment within T, planted"),
            (_, Some(true)) => self.tally.meet("an assignment within T, by search"),
            (_, Some(false)) => self.tally.meet("no assignment within T, by search"),
            _ => {}
        }
        for kind in kinds {
            self.tally.meet(&kind);
        }
    }

    fn same_word(&self, library: u64, second: u64, sheet: &[u8]) {
        if library != second {
            self.fail(&two_words(library, second), sheet);
        }
    }

    fn same_bytes(&self, what: &str, found: &Guarded, expected: &Guarded, sheet: &[u8]) {
        if let Some(at) = found.first_difference(expected) {
            self.fail(&format!("{what} differs first at byte {at}"), sheet);
        }
    }

    pub fn expect(&self, what: &str, holds: bool, sheet: &[u8]) {
        if !holds {
            self.fail(&format!("{what}: not so"), sheet);
        }
    }

    fn fail(&self, report: &str, sheet: &[u8]) -> ! {
        self.tally.print();
        println!("plans: FAILED, class \"{}\", seed {}\n{report}", self.class, self.seed);
        if let Some(case) = case_of(sheet) {
            println!("by the second planner:\n{}", print_case(&case));
        }
        println!("sheet {}", hex::print(sheet));
        process::exit(1)
    }
}

fn two_words(library: u64, second: u64) -> String {
    format!("library: {}\nsecond planner: {}", words(library), words(second))
}
