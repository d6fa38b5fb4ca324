//! Fixed sheets for the search: hand-worked days, the corpus, the samples, the slow full sheets,
//! the highest start, and answer tables of each length.

use crate::best_library;
use crate::check::{Check, Rival};
use second::codec::door::{word, ENTRY_BYTES};
use second::codec::fault::{Fault, NO_ROOM};
use second::codec::sheet::{Head, Job};
use second::corpus::{self, print_best};
use second::gen::day::{bench_bit, Day, MOST_MINUTES};
use second::lent::empty::Empty;
use second::planner::best::Best;
use second::planner::door::{BEST, BEST_ENTRIES};
use second::samples;
use std::thread;

/// A search needs less stack than this.
const STACK: usize = 256 * 1024;

pub fn all(check: &mut Check) {
    worked(check);
    corpus(check);
    bookings_alone(check);
    highest_start(check);
    answer_tables(check);
    slow(check);
}

fn worked(check: &mut Check) {
    check.class("fixed: hand-worked best targets");
    for case in corpus::cases(corpus::BEST_TEXT) {
        let sheet = case.day.draft().bytes();
        let searched = check.best(&sheet, Rival::Searched);
        check.expect(&case.name, print_best(searched.best()) == case.answer, &sheet);
    }
}

fn corpus(check: &mut Check) {
    check.class("fixed: best targets of the corpus");
    for case in corpus::cases(corpus::TEXT) {
        check.best_of_day(&case.day, Rival::Searched);
    }
    check.class("fixed: best targets of the folder samples/");
    for (_, sheet) in samples::all() {
        check.best(&sheet, Rival::Unknown);
    }
    check.best(&[], Rival::Unknown);
}

fn head(benches: u64) -> Head {
    Head { benches, p: 4, q: 7, target: 9 }
}

/// One bench booked for 13 minutes, of one to 64: 21 × 13 = 39 × 7, found by trying 13, 6, 10, 8
/// and 7. Then all of them.
fn bookings_alone(check: &mut Check) {
    check.class("fixed: best targets of bookings alone");
    for benches in 1..=64 {
        let mut day = Day::new(head(benches as u64), Vec::new());
        for (first, booked) in [(benches - 1, benches - 1..benches), (0, 0..benches)] {
            day.booked[booked].fill(13);
            let sheet = day.draft().bytes();
            let searched = check.best(&sheet, Rival::Unknown);
            let loads = &day.booked[..benches];
            let best = Best {
                target: 7,
                runs: 5,
                largest: 13,
                moves: 0,
                fullest: first,
                places: &[],
                loads,
            };
            check.expect("target 7 after five runs", searched.best() == Ok(best), &sheet);
        }
    }
}

/// 512 jobs of the most minutes on one bench, and as many booked on another. With the share 20/31
/// the search runs 31 targets, the most that there can be: 93 × 512 × 1,048,575 is above 175 ×
/// 285,308,269 and not above 175 × 285,308,270.
fn highest_start(check: &mut Check) {
    check.class("fixed: the highest start");
    for (p, q, target, runs) in [(4, 7, 289_084_062, 30), (20, 31, 285_308_270, 31)] {
        for benches in [[0, 1], [62, 63]] {
            let job = Job { minutes: MOST_MINUTES, allowed: bench_bit(benches[0]) };
            let head = Head { benches: benches[1] + 1, p, q, target: 0 };
            let mut day = Day::new(head, vec![job; 512]);
            day.booked[benches[1] as usize] = MOST_MINUTES;
            let sheet = day.draft().bytes();
            let searched = check.best(&sheet, Rival::Unknown);
            let found = searched.best().map(|best| (best.target, best.runs, best.largest));
            let expected = (target, runs, 512 * MOST_MINUTES);
            check.expect("as many runs", found == Ok(expected), &sheet);
        }
    }
}

/// Answer tables of each length up to one entry more than it takes.
fn answer_tables(check: &mut Check) {
    check.class("fixed: answer tables of a best target");
    let room = ENTRY_BYTES * BEST_ENTRIES;
    for target in [4, 8, 9] {
        let job = Job { minutes: 5, allowed: bench_bit(0) | bench_bit(1) };
        let day = Day::new(Head { target, ..head(2) }, vec![job; 3]);
        let sheet = day.draft().bytes();
        for bytes in 0..=room + ENTRY_BYTES {
            let expected = if bytes < room { word(Err(Fault::new(NO_ROOM, 0))) } else { BEST };
            let searched = check.best_into(&sheet, [24, 16, bytes], Rival::Unknown);
            check.expect("fault 13 below 40 bytes", searched.word == expected, &sheet);
        }
    }
}

/// The slow full sheets, and each again on a thread that has little stack: a call that needs more
/// ends the program.
fn slow(check: &mut Check) {
    check.class("fixed: best targets of slow full sheets");
    for (_, sheet) in corpus::SLOW {
        let searched = check.best(sheet, Rival::Unknown);
        let mut tables = [vec![0; 8 * 512], vec![0; 8 * 64], vec![0; ENTRY_BYTES * BEST_ENTRIES]];
        let call = move || {
            let [places, loads, answer] = &mut tables;
            best_library::best(sheet, [places, loads, answer], Empty::Pointer)
        };
        let word = thread::Builder::new()
            .stack_size(STACK)
            .spawn(call)
            .expect("a thread can be started")
            .join()
            .expect("the call ends");
        check.expect("the same word", word.is_none_or(|word| word == searched.word), sheet);
    }
}
