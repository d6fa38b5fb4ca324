//! Times of checking a set, a list and a page of full sheets and of comparing two lists: the second
//! planner's plain procedure, and, with the feature `library`, the static library beside it and its
//! time of planning the same sheet. All start from the same bytes in the same run, in turns. The
//! program fails where a page takes longer than its sets one by one.

mod check_library;
mod library;
mod page_times;
mod timed_sheets;
mod timing;

use second::codec::door::Codec;
use second::codec::sheet::{Head, Job};
use second::gen::day::{bench_bit, Day};
use second::gen::lists::table;
use second::lent::empty::Empty;
use second::lent::tables::Tables;
use second::light_days;
use second::planner::algorithm::{Answer, Planner, Rooms};
use second::planner::door::{
    self, ANSWER_ENTRIES, CHECK_PLAN_ENTRIES, CHECK_SET_ENTRIES, LONG, SAME,
};
use second::planner::set::Set;
use std::array;
use std::hint::black_box;
use std::process::ExitCode;
use std::time::Duration;
use timing::{least, microseconds, time, WARM_UP};

const SAMPLES: usize = 20;
/// Calls of a check in one sample: one call is too short for the clock.
const CALLS: u32 = 20;

/// A sheet, with the set and the list that are checked: those of its answer where it has them, else
/// all benches, and the lowest bench of each job. The list is compared with itself in another
/// buffer: every job is looked at, and a library that compares loads says the same of it, so that
/// it can be timed too.
struct Sheet {
    name: String,
    bytes: Vec<u8>,
    answer: &'static str,
    set: Set,
    list: Vec<u8>,
    again: Vec<u8>,
}

impl Sheet {
    fn new(planner: &mut Planner, name: &str, day: &Day) -> Sheet {
        let bytes = day.draft().bytes();
        let lowest = |job: &Job| u64::from(job.allowed.leading_zeros());
        let (mut set, mut places) = (Set::first(64), day.jobs.iter().map(lowest).collect());
        let answer = match planner.plan(&bytes, Rooms::FULL) {
            Ok(Answer::Plan { places: own, .. }) => {
                places = own.to_vec();
                "plan"
            }
            Ok(Answer::None { benches, .. }) => {
                set = benches;
                "none"
            }
            _ => unreachable!("no job is long"),
        };
        let [list, again] = [table(&places), table(&places)];
        Sheet { name: name.to_string(), bytes, answer, set, list, again }
    }
}

/// The library and the second planner, on tables of their own.
struct Pair {
    planner: Planner,
    tables: Tables<ANSWER_ENTRIES>,
    answer: [u8; 8 * CHECK_PLAN_ENTRIES],
    expected: [u8; 8 * CHECK_PLAN_ENTRIES],
}

/// What the calls said: the result word and the answer table, if the library is linked.
type Said = (Option<u64>, [u8; 8 * CHECK_PLAN_ENTRIES]);

impl Pair {
    fn library_plan(&mut self, sheet: &Sheet) -> Option<u64> {
        library::plan(black_box(&sheet.bytes), black_box(self.tables.all()), Empty::Pointer)
    }

    fn second_plan(&mut self, sheet: &Sheet) -> u64 {
        let [places, loads, answer] = black_box(self.tables.all());
        door::plan(&mut self.planner, black_box(&sheet.bytes), places, loads, answer)
    }

    fn library_set(&mut self, sheet: &Sheet) -> Option<u64> {
        let answer = &mut black_box(&mut self.answer)[..8 * CHECK_SET_ENTRIES];
        let set = black_box(sheet.set.0);
        check_library::check_set(black_box(&sheet.bytes), set, answer, Empty::Pointer)
    }

    fn second_set(&mut self, sheet: &Sheet) -> u64 {
        let answer = &mut black_box(&mut self.expected)[..8 * CHECK_SET_ENTRIES];
        let set = black_box(sheet.set.0);
        door::check_set(&mut self.planner, black_box(&sheet.bytes), set, answer)
    }

    fn library_list(&mut self, sheet: &Sheet) -> Option<u64> {
        let list = black_box(&sheet.list);
        let answer = black_box(&mut self.answer);
        check_library::check_plan(black_box(&sheet.bytes), list, answer, Empty::Pointer)
    }

    fn second_list(&mut self, sheet: &Sheet) -> u64 {
        let list = black_box(&sheet.list);
        let answer = black_box(&mut self.expected);
        door::check_plan(&mut self.planner, black_box(&sheet.bytes), list, answer)
    }

    fn library_comparison(&self, sheet: &Sheet) -> Option<u64> {
        let lists = [&sheet.list, &sheet.again].map(|list| black_box(&list[..]));
        library::compare(black_box(&sheet.bytes), lists, Empty::Pointer)
    }

    fn second_comparison(&mut self, sheet: &Sheet) -> u64 {
        let [first, second] = [&sheet.list, &sheet.again].map(black_box);
        door::compare(&mut self.planner, black_box(&sheet.bytes), first, second)
    }

    fn same(&self, name: &str, library: Option<u64>, second: u64) {
        let (found, expected): (Said, Said) =
            ((library, self.answer), (Some(second), self.expected));
        assert!(library.is_none() || found == expected, "{name}: the answers differ");
    }

    /// Holds the two against each other.
    fn compare(&mut self, sheet: &Sheet) {
        (self.answer, self.expected) = ([0xA5; 16], [0xA5; 16]);
        let (library, second) = (self.library_set(sheet), self.second_set(sheet));
        assert_ne!(second, LONG, "{}: a job is long", sheet.name);
        self.same(&sheet.name, library, second);
        let (library, second) = (self.library_list(sheet), self.second_list(sheet));
        self.same(&sheet.name, library, second);
        let (library, second) = (self.library_comparison(sheet), self.second_comparison(sheet));
        assert_eq!(second, SAME, "{}: the same list is another", sheet.name);
        self.same(&sheet.name, library, second);
    }

    /// The times of the calls, by the library and by the second planner.
    fn times(&mut self, sheet: &Sheet) -> [Times; 2] {
        let many = |call: &mut dyn FnMut()| (0..CALLS).for_each(|_| call());
        let times: [Duration; 8] = least(SAMPLES, |index| match index {
            0 => time(|| self.library_plan(sheet)),
            1 => time(|| many(&mut || _ = black_box(self.library_set(sheet)))) / CALLS,
            2 => time(|| many(&mut || _ = black_box(self.library_list(sheet)))) / CALLS,
            3 => time(|| many(&mut || _ = black_box(self.library_comparison(sheet)))) / CALLS,
            4 => time(|| self.second_plan(sheet)),
            5 => time(|| many(&mut || _ = black_box(self.second_set(sheet)))) / CALLS,
            6 => time(|| many(&mut || _ = black_box(self.second_list(sheet)))) / CALLS,
            _ => time(|| many(&mut || _ = black_box(self.second_comparison(sheet)))) / CALLS,
        });
        let [plan, set, list, comparison, rest @ ..] = times.map(microseconds);
        let [second_plan, second_set, second_list, second_comparison] = rest;
        [
            Times { plan, calls: [set, list, comparison] },
            Times { plan: second_plan, calls: [second_set, second_list, second_comparison] },
        ]
    }
}

/// What is timed beside planning.
const CALLED: [&str; 3] = ["set", "list", "compare"];

/// The times of planning and of each of those.
struct Times {
    plan: f64,
    calls: [f64; 3],
}

/// The largest of what was met.
#[derive(Default)]
struct Worst {
    plan: f64,
    calls: [f64; 3],
    ratios: [f64; 3],
}

impl Worst {
    fn add(&mut self, times: &Times, ratios: [f64; 3]) {
        let larger = |one: [f64; 3], two: [f64; 3]| array::from_fn(|call| one[call].max(two[call]));
        self.plan = self.plan.max(times.plan);
        self.calls = larger(self.calls, times.calls);
        self.ratios = larger(self.ratios, ratios);
    }

    fn print(&self) {
        let of_each = |text: &dyn Fn(usize) -> String| [0, 1, 2].map(text).join(", ");
        println!(
            "slowest {}; of the slowest plan {}",
            of_each(&|call| format!("{} {:.1}", CALLED[call], self.calls[call])),
            of_each(&|call| format!("{:.4}", self.calls[call] / self.plan))
        );
        if library::LINKED {
            let ratio = |call: usize| format!("{} {:.2}", CALLED[call], self.ratios[call]);
            println!("worst ratios: {}", of_each(&ratio));
        }
    }
}

/// Full days with as many heavy jobs as a placement can take: 63 in a chain, 64 in a cycle, 64 with
/// one bench each, behind light jobs and before them.
fn heavy_days() -> Vec<(&'static str, Day)> {
    let head = Head { benches: 64, p: 4, q: 7, target: 700 };
    let light = |job: u64| Job { minutes: 1 + job % 40, allowed: bench_bit(job % 64) };
    let heavy = |bench: u64, other: u64| Job {
        minutes: 500 + bench,
        allowed: bench_bit(bench) | bench_bit(other % 64),
    };
    let chain: Vec<Job> = (0..63).map(|bench| heavy(bench, bench + 1)).collect();
    let cycle: Vec<Job> = (0..64).map(|bench| heavy(bench, bench + 1)).collect();
    let alone: Vec<Job> = (0..64).map(|bench| heavy(bench, bench)).collect();
    let mut days = Vec::new();
    for (name, jobs) in [("63 heavy, chain", chain), ("64 heavy, cycle", cycle)] {
        let rest: Vec<Job> = (jobs.len() as u64..512).map(light).collect();
        days.push((name, Day::new(head, [jobs, rest].concat())));
    }
    let rest: Vec<Job> = (alone.len() as u64..512).map(light).collect();
    days.push(("64 heavy, one bench", Day::new(head, [rest, alone].concat())));
    days
}

fn days() -> Vec<(&'static str, Day)> {
    let mut codec = Codec::default();
    let day = |(name, bytes): (&'static str, Vec<u8>)| {
        (name, Day::of(codec.read(&bytes).expect("the sheet is accepted")))
    };
    let timed = timed_sheets::all().into_iter().map(day);
    timed.chain(light_days::all()).chain(heavy_days()).collect()
}

fn print_heading() {
    println!(
        "checks and comparisons of full sheets; best of {SAMPLES} after {WARM_UP}, microseconds;"
    );
    println!("/plan: how many times as long as planning the same sheet");
    print!("{:<29} {:>10}", "", "plan");
    CALLED.iter().for_each(|call| print!(" {call:>8}"));
    if library::LINKED {
        print!(" {:>10}", "library");
        CALLED.iter().for_each(|call| print!(" {call:>8} {:>6} {:>7}", "ratio", "/plan"));
        println!();
    } else {
        println!(" (second planner; library not linked)");
    }
}

/// Prints the times of each day but for those of pages.
fn print_calls(days: &[(&str, Day)]) {
    print_heading();
    let mut pair =
        Pair { planner: Planner::new(), tables: Tables::new(), answer: [0; 16], expected: [0; 16] };
    let mut worst = Worst::default();
    let mut planner = Planner::new();
    for (name, day) in days {
        let sheet = Sheet::new(&mut planner, name, day);
        pair.compare(&sheet);
        let [library, second] = pair.times(&sheet);
        print!("{:<24} {} {:>10.1}", sheet.name, sheet.answer, second.plan);
        second.calls.iter().for_each(|time| print!(" {time:>8.2}"));
        if library::LINKED {
            let ratios = array::from_fn(|call| library.calls[call] / second.calls[call]);
            print!(" {:>10.1}", library.plan);
            for (time, ratio) in library.calls.into_iter().zip(ratios) {
                print!(" {time:>8.2} {ratio:>6.2} {:>7.4}", time / library.plan);
            }
            worst.add(&library, ratios);
        } else {
            worst.add(&second, [0.0; 3]);
        }
        println!();
    }
    worst.print();
}

fn main() -> ExitCode {
    let days = days();
    print_calls(&days);
    println!();
    if !page_times::print(&days) {
        println!("check_times: FAILED, a page takes longer than its sets one by one");
        return ExitCode::FAILURE;
    }
    ExitCode::SUCCESS
}
