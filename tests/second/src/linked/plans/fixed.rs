//! Fixed sheets for planning: the corpus, examples 11 and 12, and the slow full sheets.

use crate::check::{Check, Rival};
use crate::library;
use second::codec::door::word;
use second::codec::fault::Fault;
use second::corpus::{self, print_answer};
use second::hex;
use second::lent::empty::Empty;
use second::planner::door::{ANSWER_ENTRIES, PLAN};
use second::samples;
use std::thread;

/// A call needs less stack than this.
const STACK: usize = 256 * 1024;

pub fn all(check: &mut Check) {
    corpus(check);
    examples_11_and_12(check);
    samples(check);
    slow(check);
    small_stack(check);
}

fn corpus(check: &mut Check) {
    check.class("fixed: the corpus");
    for case in corpus::cases(corpus::TEXT) {
        let sheet = case.day.draft().bytes();
        let planned = check.plan(&sheet, Rival::Searched);
        check.expect(&case.name, print_answer(planned.answer()) == case.answer, &sheet);
    }
}

/// "Empty sheet: fault 2, place 0"; and "With 21 00 01 FF put after the head it reads alike".
fn examples_11_and_12(check: &mut Check) {
    check.class("fixed: examples 11 and 12");
    let planned = check.plan(&[], Rival::Unknown);
    check.expect("example 11", planned.word == word(Err(Fault::new(2, 0))), &[]);
    let plain = samples::example_12();
    let mut longer = plain.clone();
    longer.splice(10..10, hex::parse("21 00 01 FF"));
    for sheet in [plain, longer] {
        let planned = check.plan(&sheet, Rival::Unknown);
        let holds = planned.word == PLAN && planned.places == [0, 0, 0] && planned.loads == [15, 0];
        check.expect("example 12", holds, &sheet);
    }
}

fn samples(check: &mut Check) {
    check.class("fixed: the folder samples/");
    for (_, sheet) in samples::all() {
        check.plan(&sheet, Rival::Unknown);
    }
}

fn slow(check: &mut Check) {
    check.class("fixed: slow full sheets");
    for (_, sheet) in corpus::SLOW {
        check.plan(sheet, Rival::Unknown);
    }
}

/// The slow sheets again, each on a thread that has no more stack: a call that needs more ends the
/// program.
fn small_stack(check: &mut Check) {
    check.class("fixed: slow full sheets, little stack");
    for (_, sheet) in corpus::SLOW {
        let planned = check.plan(sheet, Rival::Unknown);
        let mut tables = [vec![0; 8 * 512], vec![0; 8 * 64], vec![0; 8 * ANSWER_ENTRIES]];
        let call = move || {
            let [places, loads, answer] = &mut tables;
            library::plan(sheet, [places, loads, answer], Empty::Pointer)
        };
        let word = thread::Builder::new()
            .stack_size(STACK)
            .spawn(call)
            .expect("a thread can be started")
            .join()
            .expect("the call ends");
        check.expect("the same word", word.is_none_or(|word| word == planned.word), sheet);
    }
}
