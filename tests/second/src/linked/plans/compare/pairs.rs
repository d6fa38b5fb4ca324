//! All pairs of lists of tiny sheets: up to three jobs on up to three benches.

use crate::check::Check;
use second::codec::sheet::{Head, Job};
use second::gen::bay::{alike::alike, days};
use second::gen::check_only;
use second::gen::day::{bench_bit, Day};
use second::gen::lists::{self, table};

const MOST_JOBS: usize = 3;
const MOST_BENCHES: u64 = 3;

/// Each pair of two lists in both orders, each list with itself.
fn all_pairs(check: &mut Check, day: &Day, lists: impl Iterator<Item = Vec<u64>>) {
    let sheet = day.draft().bytes();
    let tables: Vec<Vec<u8>> = lists.map(|list| table(&list)).collect();
    for (number, first) in tables.iter().enumerate() {
        for second in &tables[number..] {
            check.compare(&sheet, [first, second]);
        }
    }
}

/// Two jobs that are alike and a check-only one, of which the first two do not allow bench 1 of
/// three. Places up to one that is no bench, and lists with one place less and one more.
pub fn fixed(check: &mut Check) {
    check.class("fixed: all pairs of lists of tiny sheets");
    for benches in 1..=MOST_BENCHES {
        let last = bench_bit(0) | bench_bit(benches - 1);
        let all = (0..benches).map(bench_bit).sum();
        let jobs =
            [(5, last), (5, last), (0, all)].map(|(minutes, allowed)| Job { minutes, allowed });
        for count in 0..=MOST_JOBS {
            let head = Head { benches, p: 4, q: 7, target: 9 };
            let day = Day::new(head, jobs[..count].to_vec());
            let lengths = count.saturating_sub(1)..=count + 1;
            all_pairs(check, &day, lengths.flat_map(|length| lists::all(length, benches)));
        }
    }
}

/// The same on random sheets, with lists of the right length.
pub fn round(check: &mut Check) {
    check.class("comparison: all pairs of lists of tiny sheets");
    for benches in 1..=MOST_BENCHES {
        for jobs in 0..=MOST_JOBS {
            let size = days::Size { benches, jobs, target: check.rng.range(1, 20) };
            let day = match check.rng.below(3) {
                0 => check_only::only(&mut check.rng, benches, jobs),
                1 => days::any(&mut check.rng, size),
                _ => alike(&mut check.rng, size),
            };
            all_pairs(check, &day, lists::all(day.jobs.len(), benches));
        }
    }
}
