//! Times of checking a page of 64 sets, each bench by itself, beside those of 64 checks of one set:
//! by the second planner's plain procedure, and, with the feature `library`, by the static library.
//! A page reads its sheet once. Every bench is booked above T, so that each set is blocking and all
//! of them are judged.

use crate::timing::{least, microseconds, time};
use crate::{check_library, library, SAMPLES};
use second::gen::day::Day;
use second::lent::empty::Empty;
use second::planner::algorithm::Planner;
use second::planner::door::{self, CHECK_PAGE_ENTRIES, PASSED};
use second::planner::set::Set;
use std::hint::black_box;

const SETS: usize = 64;

struct Sheet<'a> {
    name: &'a str,
    bytes: Vec<u8>,
    page: Vec<u8>,
}

impl Sheet<'_> {
    /// The day with every bench booked one above T.
    fn new<'a>(name: &'a str, day: &Day) -> Sheet<'a> {
        let booked = [day.head.target + 1; 64];
        let bytes = Day { booked, ..day.clone() }.draft().bytes();
        let page = (0..SETS).flat_map(|bench| Set::one(bench).0.to_le_bytes()).collect();
        Sheet { name, bytes, page }
    }
}

/// The library and the second planner, on one answer table.
struct Pair {
    planner: Planner,
    answer: [u8; 8 * CHECK_PAGE_ENTRIES],
}

impl Pair {
    fn library_page(&mut self, sheet: &Sheet) -> Option<u64> {
        let (bytes, page) = (black_box(&sheet.bytes), black_box(&sheet.page));
        check_library::check_page(bytes, page, black_box(&mut self.answer), Empty::Pointer)
    }

    fn second_page(&mut self, sheet: &Sheet) -> u64 {
        let (bytes, page) = (black_box(&sheet.bytes), black_box(&sheet.page));
        door::check_page(&mut self.planner, bytes, page, black_box(&mut self.answer))
    }

    fn library_set(&mut self, sheet: &Sheet, bench: usize) -> Option<u64> {
        let (bytes, set) = (black_box(&sheet.bytes), black_box(Set::one(bench).0));
        check_library::check_set(bytes, set, black_box(&mut self.answer), Empty::Pointer)
    }

    fn second_set(&mut self, sheet: &Sheet, bench: usize) -> u64 {
        let (bytes, set) = (black_box(&sheet.bytes), black_box(Set::one(bench).0));
        door::check_set(&mut self.planner, bytes, set, black_box(&mut self.answer))
    }

    /// Every set passes, by itself and on the page.
    fn compare(&mut self, sheet: &Sheet) {
        let passed = |library: Option<u64>, second: u64| {
            let holds = second == PASSED && library.is_none_or(|word| word == PASSED);
            assert!(holds, "{}: a set is not passed", sheet.name);
        };
        passed(self.library_page(sheet), self.second_page(sheet));
        for bench in 0..SETS {
            passed(self.library_set(sheet, bench), self.second_set(sheet, bench));
        }
    }

    /// The times of the calls: page and sets by the library, page and sets by the second planner.
    fn times(&mut self, sheet: &Sheet) -> [f64; 4] {
        let times = least(SAMPLES, |index| match index {
            0 => time(|| self.library_page(sheet)),
            1 => time(|| (0..SETS).for_each(|b| _ = black_box(self.library_set(sheet, b)))),
            2 => time(|| self.second_page(sheet)),
            _ => time(|| (0..SETS).for_each(|b| _ = black_box(self.second_set(sheet, b)))),
        });
        times.map(microseconds)
    }
}

fn print_heading() {
    println!("pages of {SETS} sets of the same sheets, every bench booked above T, microseconds;");
    println!("/sets: how many times as long as {SETS} checks of one set");
    print!("{:<29} {:>8} {:>8} {:>6}", "", "page", "sets", "/sets");
    if library::LINKED {
        println!(" {:>10} {:>6} {:>8} {:>6}", "library", "ratio", "sets", "/sets");
    } else {
        println!(" (second planner; library not linked)");
    }
}

/// Prints the times of each day; whether no page takes longer than its sets.
pub fn print(days: &[(&str, Day)]) -> bool {
    print_heading();
    let mut pair = Pair { planner: Planner::new(), answer: [0; 8 * CHECK_PAGE_ENTRIES] };
    let (mut worst, mut worst_ratio) = (0.0_f64, 0.0_f64);
    for (name, day) in days {
        let sheet = Sheet::new(name, day);
        pair.compare(&sheet);
        let [page, sets, second_page, second_sets] = pair.times(&sheet);
        let second_share = second_page / second_sets;
        print!("{name:<29} {second_page:>8.1} {second_sets:>8.1} {second_share:>6.2}");
        if library::LINKED {
            let (ratio, share) = (page / second_page, page / sets);
            println!(" {page:>10.1} {ratio:>6.2} {sets:>8.1} {share:>6.2}");
            (worst, worst_ratio) = (worst.max(share), worst_ratio.max(ratio));
        } else {
            println!();
            worst = worst.max(second_share);
        }
    }
    if library::LINKED {
        println!("worst ratio: page {worst_ratio:.2}");
    }
    println!("slowest page {worst:.2} of its sets");
    worst <= 1.0
}
