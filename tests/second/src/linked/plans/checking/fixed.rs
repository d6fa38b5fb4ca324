//! Fixed lists, sets and pages: those worked by hand, our answers to the corpus, to the samples, to
//! the slow full sheets and to the light days, answer tables of each length, and little stack.

use super::own::answer_of;
use super::{page_table, words, Checks, Said};
use crate::check_library;
use second::codec::door::{fault_number, Codec};
use second::codec::fault::{LIST, NO_ROOM, SET, SHARED};
use second::codec::sheet::{Head, Job};
use second::corpus;
use second::gen::bay::heavy::Shape;
use second::gen::bay::light::Choice;
use second::gen::bay::{days, placements};
use second::gen::day::{bench_bit, Day};
use second::gen::lists::table;
use second::lent::empty::Empty;
use second::light_days;
use second::papers::{self, Paper};
use second::planner::door::{LONG, NOT_PASSED, PASSED};
use second::planner::set::Set;
use second::rng::Rng;
use second::samples;
use std::thread;

/// A check needs less stack than this.
const STACK: usize = 256 * 1024;

pub fn all(checks: &mut Checks) {
    worked(checks);
    own(checks);
    answer_tables(checks);
    wide_lists(checks);
    wide_pages(checks);
    little_stack(checks);
}

/// What was said, as the text has it.
fn print_list(said: Said) -> String {
    match (fault_number(said.word), said.word, said.entries) {
        (0, PASSED, [largest, fullest]) => format!("passed {largest} {fullest}"),
        (0, NOT_PASSED, [0, 0]) => "not passed".to_string(),
        (number, word, _) if number > 0 => format!("fault {number} {}", word as u32),
        _ => words(said.word),
    }
}

fn print_set(said: Said) -> String {
    match (fault_number(said.word), said.word, said.entries[0]) {
        (0, PASSED, 0) => "passed".to_string(),
        (0, NOT_PASSED, 0) => "not passed".to_string(),
        (0, LONG, job) => format!("long {job}"),
        (number, word, _) if number > 0 => format!("fault {number} {}", word as u32),
        _ => words(said.word),
    }
}

fn print_page(said: Said) -> String {
    match (fault_number(said.word), said.word, said.entries[0]) {
        (0, NOT_PASSED, set) => format!("not passed {set}"),
        _ => print_set(said),
    }
}

fn worked(checks: &mut Checks) {
    checks.class("fixed: lists, sets and pages worked by hand");
    for papers::Case { name, day, paper, answer, .. } in papers::all() {
        let sheet = day.draft().bytes();
        match paper {
            Paper::List(places) => {
                let list = table(&places);
                let said = checks.list(&sheet, &list);
                checks.expect_list(&name, print_list(said) == answer, &sheet, &list);
            }
            Paper::Set(set) => {
                let said = checks.set(&sheet, set);
                checks.expect_set(&name, print_set(said) == answer, &sheet, set);
            }
            Paper::Page(sets) => {
                let page = page_table(&sets);
                let said = checks.page(&sheet, &page);
                checks.expect_page(&name, print_page(said) == answer, &sheet, &page);
            }
        }
    }
}

fn own(checks: &mut Checks) {
    checks.class("fixed: our answers to the corpus");
    for case in corpus::cases(corpus::TEXT) {
        if !case.answer.starts_with("fault") {
            answer_of(checks, &case.day);
        }
    }
    let mut codec = Codec::default();
    checks.class("fixed: our answers to the folder samples/");
    for (_, sheet) in samples::all() {
        if let Ok(sheet) = codec.read(&sheet) {
            answer_of(checks, &Day::of(sheet));
        }
    }
    checks.class("fixed: our answers to slow full sheets");
    for (_, sheet) in corpus::SLOW {
        answer_of(checks, &Day::of(codec.read(sheet).expect("accepted")));
    }
    checks.class("fixed: our answers to the light days");
    for (_, day) in light_days::all() {
        answer_of(checks, &day);
    }
}

fn head(benches: u64, target: u64) -> Head {
    Head { benches, p: 4, q: 7, target }
}

/// Answer tables of each length up to one entry more than it takes, for each answer.
fn answer_tables(checks: &mut Checks) {
    checks.class("fixed: answer tables");
    let job = Job { minutes: 5, allowed: bench_bit(0) | bench_bit(1) };
    let no_room = |said: Said| said.word == u64::from(NO_ROOM) << 32;
    for target in [4, 8, 9] {
        let sheet = Day::new(head(2, target), vec![job; 3]).draft().bytes();
        for places in [&[0, 0, 1][..], &[0, 0, 2], &[0, 0]] {
            for bytes in 0..=24 {
                let list = table(places);
                let said = checks.list_into(&sheet, &list, bytes);
                let holds = no_room(said) == (bytes < 16);
                checks.expect_list("fault 13 below 16 bytes", holds, &sheet, &list);
            }
        }
        for set in [Set::first(2), Set::one(0), Set::EMPTY, Set::one(2)] {
            for bytes in 0..=16 {
                let said = checks.set_into(&sheet, set, bytes);
                let holds = no_room(said) == (bytes < 8);
                checks.expect_set("fault 13 below 8 bytes", holds, &sheet, set);
                for page in [&page_table(&[set, set])[..], &page_table(&[set])[..3], &[]] {
                    let said = checks.page_into(&sheet, page, bytes);
                    let holds = no_room(said) == (bytes < 8);
                    checks.expect_page("fault 13 below 8 bytes", holds, &sheet, page);
                }
            }
        }
    }
}

/// Lists of each length about that of the jobs, up to 512 jobs, and sets with each bench.
fn wide_lists(checks: &mut Checks) {
    checks.class("fixed: lists of each length");
    for jobs in [0, 1, 2, 511, 512] {
        let job = Job { minutes: 1, allowed: bench_bit(0) };
        let sheet = Day::new(head(1, 512), vec![job; jobs]).draft().bytes();
        for bytes in (8 * jobs).saturating_sub(17)..=8 * jobs + 17 {
            let list = vec![0; bytes];
            let said = checks.list(&sheet, &list);
            let expected = match bytes.div_ceil(8) == jobs {
                true => format!("passed {jobs} 0"),
                false => format!("fault {LIST} 0"),
            };
            checks.expect_list("one place a job", print_list(said) == expected, &sheet, &list);
        }
    }
    checks.class("fixed: each bench by itself");
    for benches in 1..=64 {
        let job = Job { minutes: 7, allowed: bench_bit(benches - 1) };
        let mut day = Day::new(head(benches, 7), vec![job]);
        day.booked[benches as usize - 1] = 1;
        let sheet = day.draft().bytes();
        for bench in 0..64 {
            let said = print_set(checks.set(&sheet, Set::one(bench as usize)));
            let expected = match bench {
                _ if bench + 1 == benches => "passed".to_string(),
                _ if bench < benches => "not passed".to_string(),
                _ => format!("fault {SET} {bench}"),
            };
            checks.expect_set("the last bench", said == expected, &sheet, Set::one(bench as usize));
        }
    }
}

/// Pages of each length about 64 sets, and far above: each bench by itself, then each sort of set.
/// All benches are blocking, or all but the last; a job is long or not.
fn wide_pages(checks: &mut Checks) {
    checks.class("fixed: pages of 63 sets to 100,000");
    for (last, minutes) in [(8, 1), (7, 1), (8, 8)] {
        let mut day = Day::new(head(64, 7), vec![Job { minutes, allowed: bench_bit(0) }]);
        day.booked = [8; 64];
        day.booked[63] = last;
        let sheet = day.draft().bytes();
        for (more, number) in [(Set::one(5), SHARED), (Set::one(63), SHARED), (Set::EMPTY, SET)] {
            for count in [63, 64, 65, 66, 1000, 100_000] {
                let mut sets: Vec<Set> = (0..count.min(64)).map(Set::one).collect();
                sets.resize(count, more);
                let page = page_table(&sets);
                let said = print_page(checks.page(&sheet, &page));
                let expected = match count {
                    65.. => format!("fault {number} 64"),
                    _ if minutes == 8 => "long 0".to_string(),
                    64 if last == 7 => "not passed 63".to_string(),
                    _ => "passed".to_string(),
                };
                checks.expect_page("a wide page", said == expected, &sheet, &page);
            }
        }
    }
}

/// A check of a list, of a set and of a page of full sheets, each on a thread that has no more
/// stack: a call that needs more ends the program.
fn little_stack(checks: &mut Checks) {
    checks.class("fixed: full sheets, little stack");
    let mut rng = Rng::new(1);
    for shape in [Shape::Forest, Shape::Chain, Shape::Cycle, Shape::Crowded] {
        let size = days::full(&mut rng);
        let sheet = placements::with(&mut rng, size, Some(shape), Choice::Mixed).draft().bytes();
        let list = vec![0; 8 * 512];
        let set = Set::first(40);
        let page = page_table(&[set, Set::one(63)]);
        let expected = [
            checks.list(&sheet, &list).word,
            checks.set(&sheet, set).word,
            checks.page(&sheet, &page).word,
        ];
        let lent = (sheet.clone(), list.clone());
        let call = move || {
            let mut answer = [0; 16];
            let list = check_library::check_plan(&lent.0, &lent.1, &mut answer, Empty::Pointer);
            let set = check_library::check_set(&lent.0, set.0, &mut answer, Empty::Pointer);
            let page = check_library::check_page(&lent.0, &page, &mut answer, Empty::Pointer);
            [list, set, page]
        };
        let words = thread::Builder::new()
            .stack_size(STACK)
            .spawn(call)
            .expect("a thread can be started")
            .join()
            .expect("the calls end");
        let same =
            words.iter().zip(expected).all(|(word, expected)| word.is_none_or(|w| w == expected));
        checks.expect_list("the same words", same, &sheet, &list);
    }
}
