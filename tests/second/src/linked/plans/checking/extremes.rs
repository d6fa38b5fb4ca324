//! The highest numbers that a sheet has: minutes, bookings, targets, shares, with sets, pages and
//! lists.

use super::{page_table, Checks};
use second::codec::sheet::{Head, Job};
use second::gen::day::{bench_bit, Day, MOST_MINUTES, MOST_TARGET};
use second::gen::lists::table;
use second::planner::set::Set;

const SHARES: [(u64, u64); 3] = [(4, 7), (126, 127), (73, 127)];
const TARGETS: [u64; 6] =
    [0, 1, MOST_MINUTES - 1, MOST_MINUTES, 512 * MOST_MINUTES / 64, MOST_TARGET];

pub fn all(checks: &mut Checks) {
    checks.class("fixed: the highest numbers");
    for (p, q) in SHARES {
        for target in TARGETS {
            let head = Head { benches: 64, p, q, target };
            for jobs in [on_one_bench(), on_the_next(63), on_the_next(64), on_each_bench()] {
                for booked in [0, 1, MOST_MINUTES] {
                    let mut day = Day::new(head, jobs.clone());
                    day.booked = [booked; 64];
                    papers(checks, &day);
                }
            }
        }
    }
}

/// 512 jobs on bench 0.
fn on_one_bench() -> Vec<Job> {
    vec![Job { minutes: MOST_MINUTES, allowed: bench_bit(0) }; 512]
}

/// So many jobs, each on a bench and the next, and jobs of 1 minute.
fn on_the_next(count: u64) -> Vec<Job> {
    let next = |bench: u64| Job {
        minutes: MOST_MINUTES - bench % 3,
        allowed: bench_bit(bench) | bench_bit((bench + 1) % 64),
    };
    let short = |job: u64| Job { minutes: 1, allowed: bench_bit(job % 64) };
    (0..count).map(next).chain((count..512).map(short)).collect()
}

/// A job on each bench, and jobs of 1 minute.
fn on_each_bench() -> Vec<Job> {
    let job = |job: u64| Job {
        minutes: if job < 64 { MOST_MINUTES } else { 1 },
        allowed: bench_bit(job % 64),
    };
    (0..512).map(job).collect()
}

fn papers(checks: &mut Checks, day: &Day) {
    let sheet = day.draft().bytes();
    let odd =
        (0..64).filter(|bench| bench % 2 == 1).fold(Set::EMPTY, |all, bench| all | Set::one(bench));
    for set in [Set::one(0), Set::one(63), odd, Set::first(32), Set::first(63), Set::first(64)] {
        checks.set(&sheet, set);
    }
    let even = Set::first(64) - odd;
    let alone: Vec<Set> = (0..64).map(Set::one).collect();
    for sets in [&alone[..], &[odd, even], &[even, odd], &[Set::first(32), Set::one(63)]] {
        checks.page(&sheet, &page_table(sets));
    }
    let lowest = |job: &Job| u64::from(job.allowed.leading_zeros());
    let highest = |job: &Job| 63 - u64::from(job.allowed.trailing_zeros());
    let lists: [Vec<u64>; 3] = [
        day.jobs.iter().map(lowest).collect(),
        day.jobs.iter().map(highest).collect(),
        vec![u64::MAX; 512],
    ];
    for list in lists {
        checks.list(&sheet, &table(&list));
    }
}
