//! Fixed sheets that tell the fullest bench from others, and answer tables of each length.

use crate::check::{Check, Rival};
use second::codec::door::{word, ENTRY_BYTES};
use second::codec::fault::{Fault, NO_ROOM};
use second::codec::sheet::{Head, Job};
use second::gen::day::{bench_bit, Day};
use second::planner::door::{ANSWER_ENTRIES, LONG, NONE, PLAN};

pub fn all(check: &mut Check) {
    pairs(check);
    each_of_64(check);
    nothing_to_do(check);
    most_jobs(check);
    after_moves(check);
    answer_tables(check);
}

/// How a bench comes to its load.
#[derive(Clone, Copy)]
enum Way {
    Job,
    Booking,
    Both,
}

const WAYS: [Way; 3] = [Way::Job, Way::Booking, Way::Both];

fn head(benches: usize, target: u64) -> Head {
    Head { benches: benches as u64, p: 4, q: 7, target }
}

fn job(minutes: u64, benches: &[u64]) -> Job {
    Job { minutes, allowed: benches.iter().map(|&bench| bench_bit(bench)).sum() }
}

/// A day with T = 5 whose plan has these loads, each of 0 to 5 minutes.
fn day(loads: &[u64], way: impl Fn(usize) -> Way) -> Day {
    let mut day = Day::new(head(loads.len(), 5), Vec::new());
    for (bench, &load) in loads.iter().enumerate() {
        let booked = match way(bench) {
            Way::Job => 0,
            Way::Booking => load,
            Way::Both => load / 2,
        };
        day.booked[bench] = booked;
        if load > booked {
            day.jobs.push(job(load - booked, &[bench as u64]));
        }
    }
    day
}

/// No load of the day's plan is above T.
fn expect(check: &mut Check, what: &str, day: &Day, fullest: usize) {
    let sheet = day.draft().bytes();
    let planned = check.plan(&sheet, Rival::Planted);
    check.expect(what, planned.fullest() == Some(fullest), &sheet);
}

/// Two of six benches are as full, or one of them has a minute less: by jobs, by bookings, both.
fn pairs(check: &mut Check) {
    check.class("fixed: two benches as full or nearly");
    let pairs = (0..6).flat_map(|higher| (0..higher).map(move |lower| (lower, higher)));
    for (lower, higher) in pairs {
        let cases = [([5, 5], lower), ([5, 4], lower), ([4, 5], higher)];
        for (minutes, fullest) in cases {
            let mut loads = [3; 6];
            [loads[lower], loads[higher]] = minutes;
            for (one, two) in WAYS.into_iter().flat_map(|one| WAYS.map(|two| (one, two))) {
                let way = |bench| if bench == lower { one } else { two };
                expect(check, "the lower one on a tie", &day(&loads, way), fullest);
            }
        }
    }
}

/// Each bench alone, and with the last one as full.
fn each_of_64(check: &mut Check) {
    check.class("fixed: each of 64 benches the fullest");
    for (bench, way) in (0..64).flat_map(|bench| WAYS.map(|way| (bench, way))) {
        let mut loads = [4; 64];
        loads[bench] = 5;
        expect(check, "this bench", &day(&loads, |_| way), bench);
        loads[63] = 5;
        expect(check, "this bench and not the last", &day(&loads, |_| way), bench);
    }
}

fn nothing_to_do(check: &mut Check) {
    check.class("fixed: nothing to do");
    for benches in 1..=64 {
        for target in [0, 9] {
            expect(check, "bench 0", &Day::new(head(benches, target), Vec::new()), 0);
        }
    }
}

/// Many short jobs on one bench, and a longer one on another.
fn most_jobs(check: &mut Check) {
    check.class("fixed: fewer jobs on the fullest bench");
    for count in 2..40 {
        for [many, fullest] in [[0, 2], [2, 0], [2, 1]] {
            let mut jobs = vec![job(1, &[many]); count];
            jobs.push(job(count as u64 + 1, &[fullest]));
            let day = Day::new(head(3, count as u64 + 1), jobs);
            expect(check, "the bench with one job", &day, fullest as usize);
        }
    }
}

/// Example 8 with more and more minutes on bench 1: job 0 moves there, and loads are 6 and 2 more.
fn after_moves(check: &mut Check) {
    check.class("fixed: a move makes the fullest bench");
    for (more, fullest) in [(0, 0), (3, 0), (4, 0), (5, 1)] {
        let mut day = Day::new(head(2, 4), vec![job(2, &[0, 1]); 4]);
        day.booked[1] = more;
        let sheet = day.draft().bytes();
        let planned = check.plan(&sheet, Rival::Unknown);
        let holds = planned.moves() == 1 && planned.loads == [6, 2 + more];
        check.expect("one move", holds, &sheet);
        check.expect("the fullest after it", planned.fullest() == Some(fullest), &sheet);
    }
}

/// Answer tables of each length up to one entry more than it takes, for each answer.
fn answer_tables(check: &mut Check) {
    check.class("fixed: answer tables of each length");
    let room = ENTRY_BYTES * ANSWER_ENTRIES;
    for (target, answer) in [(4, LONG), (8, NONE), (9, PLAN)] {
        let day = Day::new(head(2, target), vec![job(5, &[0, 1]); 3]);
        let sheet = day.draft().bytes();
        for bytes in 0..=room + ENTRY_BYTES {
            let expected = if bytes < room { word(Err(Fault::new(NO_ROOM, 0))) } else { answer };
            let planned = check.plan_into(&sheet, [24, 16, bytes], Rival::Unknown);
            check.expect("fault 13 below 24 bytes", planned.word == expected, &sheet);
        }
    }
}
