//! The static library alone, in processor time: one line a sheet for tests/side-by-side. With tabs
//! between them, it has the best time in nanoseconds, the name, the answer with its moves, the
//! checksum of word and tables, and the number of entries of the answer table that were written.

use crate::library;
use crate::thread_time;
use crate::timing::least;
use second::lent::empty::Empty;
use second::lent::tables::Tables;
use second::outcome::Outcome;
use second::planner::door::ANSWER_ENTRIES;
use std::hint::black_box;

/// Times stray more between two runs of a program than within one.
const SAMPLES: usize = 10;

/// The word of a sheet, if the library is linked.
fn plan(sheet: &[u8], tables: &mut Tables<ANSWER_ENTRIES>) -> Option<u64> {
    library::plan(black_box(sheet), black_box(tables.all()), Empty::Pointer)
}

/// What the library leaves, if it is linked.
pub fn outcome(sheet: &[u8]) -> Option<Outcome> {
    let mut tables = Tables::new();
    let word = plan(sheet, &mut tables)?;
    Some(Outcome::new(word, &tables))
}

/// Plans a sheet many times and prints its line.
pub fn print(name: &str, sheet: &[u8]) {
    let outcome = outcome(sheet).expect("the library is linked");
    let mut tables = Tables::new();
    let [time] = least(SAMPLES, |_| thread_time::time(|| plan(sheet, &mut tables)));
    let (answer, checksum) = (outcome.answer(), outcome.checksum());
    let entries = outcome.answer_entries();
    println!("{}\t{name}\t{answer}\t{checksum:016x}\t{entries}", time.as_nanos());
}
