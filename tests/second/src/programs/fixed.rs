//! Fixed sheets: the corpus with the examples of document 01, lengths about the most that a sheet
//! may have, the longest texts, and input that comes in pieces.

use crate::check::Check;
use crate::process::Feed;
use second::codec::sheet::{Head, Job};
use second::corpus;
use second::gen::bay::days;
use second::gen::day::{bench_bit, Day, MOST_MINUTES, MOST_TARGET};
use second::hex;
use second::samples;

pub fn all(check: &mut Check) {
    examples(check);
    corpus(check);
    lengths(check);
    full(check);
    blocked(check);
    check_only(check);
    pieces(check);
    scripts(check);
}

/// Example 2, to the letter, and examples 11 and 12; the corpus has the others.
fn examples(check: &mut Check) {
    check.class("examples 2, 11 and 12");
    let head = Head { benches: 1, p: 4, q: 7, target: 5 };
    let example_2 = Day::new(head, vec![Job { minutes: 5, allowed: bench_bit(0) }]);
    let sheet = example_2.draft().bytes();
    let [bay, _, best] = check.sheet(&sheet, Feed::AtOnce);
    check.expect("example 2", bay == "plan 5 0 0\n0 0\n", &sheet);
    check.expect("example 2, best", best == "best 5 3\nplan 5 0 0\n0 0\n", &sheet);
    for text in check.sheet(&[], Feed::AtOnce) {
        check.expect("example 11", text == "fault 2 0\n", &[]);
    }
    let plain = samples::example_12();
    let mut longer = plain.clone();
    longer.splice(10..10, hex::parse("21 00 01 FF"));
    for sheet in [plain, longer] {
        let [bay, _, best] = check.sheet(&sheet, Feed::AtOnce);
        let lines = "plan 15 0 0\n0 0\n1 0\n2 0\n";
        check.expect("example 12", bay == lines, &sheet);
        check.expect("example 12, best", best == format!("best 9 5\n{lines}"), &sheet);
    }
}

fn corpus(check: &mut Check) {
    check.class("the corpus");
    for text in [corpus::TEXT, corpus::BEST_TEXT] {
        for case in corpus::cases(text) {
            check.sheet(&case.day.draft().bytes(), Feed::AtOnce);
        }
    }
    check.class("the folder samples/");
    for (_, sheet) in samples::all() {
        check.sheet(&sheet, Feed::AtOnce);
    }
    check.class("slow full sheets");
    for (_, sheet) in corpus::SLOW {
        check.sheet(sheet, Feed::AtOnce);
    }
}

/// A day of this length; fault 1 from 65,537 on.
fn length(check: &mut Check, length: usize, feed: Feed) {
    let size = days::tiny(&mut check.rng);
    let mut draft = days::any(&mut check.rng, size).draft();
    draft.pad_to(&mut check.rng, length);
    let sheet = draft.bytes();
    check.expect("the length", sheet.len() == length, &sheet);
    for text in check.sheet(&sheet, feed) {
        let too_long = text == "fault 1 0\n";
        check.expect("fault 1 from 65,537 on", too_long == (length > 65_536), &sheet);
    }
}

fn lengths(check: &mut Check) {
    check.class("about 65,536 bytes");
    for bytes in [65_535, 65_536, 65_537, 65_538, 131_072] {
        for _ in 0..3 {
            length(check, bytes, Feed::AtOnce);
        }
    }
}

/// 512 jobs on 64 benches: the longest lines of each program, and random ones.
fn full(check: &mut Check) {
    check.class("512 jobs on 64 benches");
    let head = Head { benches: 64, p: 126, q: 127, target: MOST_TARGET };
    let longest = Job { minutes: MOST_MINUTES, allowed: bench_bit(63) };
    let last_bench = Day::new(head, vec![longest; 512]);
    let choice = Job { minutes: MOST_MINUTES * 126 / 127, allowed: u64::MAX };
    let mut all_benches = Day { booked: [MOST_MINUTES; 64], ..Day::new(head, vec![choice; 512]) };
    all_benches.jobs[511] = longest;
    let sheet = last_bench.draft().bytes();
    let [bay, _, best] = check.sheet(&sheet, Feed::AtOnce);
    check.expect("the last bench", bay.starts_with("plan 536870400 0 63\n0 63\n"), &sheet);
    check.expect(
        "the same plan",
        best.split_once('\n').is_some_and(|(_, rest)| rest == bay),
        &sheet,
    );
    let mut days = vec![all_benches];
    for _ in 0..4 {
        let size = days::full(&mut check.rng);
        days.push(days::any(&mut check.rng, size));
    }
    for day in days {
        check.sheet(&day.draft().bytes(), Feed::AtOnce);
    }
}

/// 65 heavy jobs on the 64 benches of one component: all of them are blocking.
fn blocked(check: &mut Check) {
    check.class("all 64 benches are blocking");
    let head = Head { benches: 64, p: 4, q: 7, target: 480 };
    let pair = |one, two| Job { minutes: 480, allowed: bench_bit(one) | bench_bit(two) };
    let mut jobs: Vec<Job> = (0..64).map(|bench| pair(bench, (bench + 1) % 64)).collect();
    jobs.push(pair(0, 32));
    let sheet = Day::new(head, jobs).draft().bytes();
    let benches: String = (0..64).map(|bench| format!(" {bench}")).collect();
    let [bay, _, _] = check.sheet(&sheet, Feed::AtOnce);
    check.expect("the set", bay == format!("none 0{benches}\n"), &sheet);
}

/// Jobs of 0 minutes are shown, and a plan has a line for each of them, also at T = 0.
fn check_only(check: &mut Check) {
    check.class("check-only jobs");
    let [one, two] = [1, 3].map(|sum| Job { minutes: 0, allowed: sum << 62 });
    for target in [0, 9] {
        let head = Head { benches: 2, p: 4, q: 7, target };
        let sheet = Day::new(head, vec![one, two, one]).draft().bytes();
        let [bay, show, _] = check.sheet(&sheet, Feed::AtOnce);
        check.expect("a line for each", bay == "plan 0 0 0\n0 1\n1 0\n2 1\n", &sheet);
        let lines = "job 0: 0 minutes, benches 1\njob 1: 0 minutes, benches 0 1\n";
        check.expect("0 minutes are shown", show.contains(lines), &sheet);
    }
    let head = Head { benches: 64, p: 4, q: 7, target: 0 };
    let full = vec![Job { minutes: 0, allowed: u64::MAX }; 512];
    let sheet = Day::new(head, full).draft().bytes();
    let [bay, _, _] = check.sheet(&sheet, Feed::AtOnce);
    check.expect("512 lines", bay.starts_with("plan 0 0 0\n0 0\n"), &sheet);
    check.expect("512 lines", bay.ends_with("\n511 0\n"), &sheet);
}

/// Input that comes slowly is read whole.
fn pieces(check: &mut Check) {
    check.class("input in pieces");
    check.sheet(&samples::example_12(), Feed::Pieces(1));
    check.sheet(&samples::day(), Feed::Pieces(7));
    check.sheet(&samples::none(), Feed::Pieces(100));
    check.sheet(&samples::booked(), Feed::Pieces(5));
    check.sheet(&samples::checks(), Feed::Pieces(11));
    for bytes in [65_535, 65_536, 65_537, 65_538] {
        length(check, bytes, Feed::Pieces(500));
    }
}

fn scripts(check: &mut Check) {
    check.class("the scripts from another folder");
    check.scripts("bay.sheet", &samples::bay());
    check.scripts("booked.sheet", &samples::booked());
}
