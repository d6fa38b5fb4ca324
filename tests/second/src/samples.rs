//! The sheets of the folder samples/.

use crate::codec::sheet::{Head, Job, Sheet};
use crate::codec::writer;
use crate::gen::day::{bench_bit, Day};
use crate::gen::draft::{frame, set, JOB_SPARE};

/// Each file of the folder with its bytes.
pub fn all() -> [(&'static str, Vec<u8>); 7] {
    [
        ("example-12.sheet", example_12()),
        ("day.sheet", day()),
        ("faulty.sheet", faulty()),
        ("bay.sheet", bay()),
        ("none.sheet", none()),
        ("booked.sheet", booked()),
        ("checks.sheet", checks()),
    ]
}

/// Examples 5 and 12: "Two benches, three jobs of 5 on both", T = 9, share 4/7.
pub fn example_5() -> Day {
    let head = Head { benches: 2, p: 4, q: 7, target: 9 };
    let job = Job { minutes: 5, allowed: bench_bit(0) | bench_bit(1) };
    Day::new(head, vec![job; 3])
}

pub fn example_12() -> Vec<u8> {
    written(&example_5())
}

/// A working day of six benches of 480 minutes, with a frame of version 2 among the jobs.
pub fn day() -> Vec<u8> {
    let head = Head { benches: 6, p: 4, q: 7, target: 480 };
    let mut bytes = written(&Day::new(head, jobs(&DAY)));
    let after_nine_jobs = writer::sheet_bytes(0, 9) - writer::sheet_bytes(0, 0) + 10;
    bytes.splice(after_nine_jobs..after_nine_jobs, frame(2, 2, b"bay note"));
    bytes
}

/// A day of five benches of 480 minutes with heavy and light jobs, for the bay program.
pub fn bay() -> Vec<u8> {
    written(&Day::new(BAY_HEAD, jobs(&BAY)))
}

/// The same day with eight more jobs of 150 minutes on benches 0 and 1.
pub fn none() -> Vec<u8> {
    let more: [(u64, &[u64]); 8] = [(150, &[0, 1]); 8];
    written(&Day::new(BAY_HEAD, [jobs(&BAY), jobs(&more)].concat()))
}

/// The day of `bay` with two benches booked for recalls: 180 minutes of bench 0, 120 of bench 3.
pub fn booked() -> Vec<u8> {
    let mut day = Day::new(BAY_HEAD, jobs(&BAY));
    day.booked[0] = 180;
    day.booked[3] = 120;
    written(&day)
}

/// The day of `bay` with four sight checks of 0 minutes: two before its first light job, one of
/// them on any bench, and two at the end.
pub fn checks() -> Vec<u8> {
    let [heavy, others] = [&BAY[..4], &BAY[4..]];
    let first: [(u64, &[u64]); 2] = [(0, &[0, 1, 2, 3, 4]), (0, &[2])];
    let last: [(u64, &[u64]); 2] = [(0, &[0, 4]), (0, &[3])];
    written(&Day::new(BAY_HEAD, jobs(&[heavy, &first, others, &last].concat())))
}

/// Example 12's sheet with the last spare bit of job 1 set: fault 6, place 24.
pub fn faulty() -> Vec<u8> {
    let mut bytes = example_12();
    set(&mut bytes[24..38], JOB_SPARE, 1);
    bytes
}

fn jobs(rows: &[(u64, &[u64])]) -> Vec<Job> {
    let job = |&(minutes, benches): &(u64, &[u64])| Job {
        minutes,
        allowed: benches.iter().map(|&bench| bench_bit(bench)).sum(),
    };
    rows.iter().map(job).collect()
}

fn written(day: &Day) -> Vec<u8> {
    let bookings = day.booked.iter().filter(|&&minutes| minutes > 0).count();
    let mut bytes = vec![0; writer::sheet_bytes(bookings, day.jobs.len())];
    let (booked, jobs) = (day.booked.into_iter(), day.jobs.iter().map(|&job| job.into()));
    let taken = writer::write(day.head, booked, jobs, &mut Sheet::new(), &mut bytes);
    taken.expect("the sample is taken");
    bytes
}

/// Minutes and benches of each job. The longest has 210 minutes, so a job with three or more
/// benches may have 120: 7 × 120 = 4 × 210.
const DAY: [(u64, &[u64]); 40] = [
    (210, &[0, 1]),
    (195, &[0]),
    (180, &[4, 5]),
    (165, &[2]),
    (150, &[1]),
    (140, &[3, 4]),
    (135, &[5]),
    (130, &[2, 3]),
    (125, &[0, 1]),
    (120, &[0, 1, 2]),
    (110, &[3, 4, 5]),
    (95, &[0, 1, 2, 3, 4, 5]),
    (90, &[3]),
    (90, &[2, 4]),
    (75, &[0, 2, 4]),
    (75, &[1, 3, 5]),
    (60, &[5]),
    (60, &[3, 4, 5]),
    (60, &[0, 1, 2, 3]),
    (55, &[2, 3]),
    (50, &[4]),
    (45, &[0, 1, 2, 3, 4, 5]),
    (45, &[1, 2]),
    (45, &[0, 5]),
    (40, &[3, 4, 5]),
    (40, &[2, 3, 4]),
    (35, &[4, 5]),
    (30, &[0, 1, 2, 3, 4, 5]),
    (30, &[0, 1, 2, 3, 4, 5]),
    (30, &[1]),
    (30, &[3, 5]),
    (25, &[2, 4, 5]),
    (25, &[0, 3]),
    (20, &[0, 1, 2, 3, 4, 5]),
    (20, &[2, 3, 4]),
    (20, &[4]),
    (15, &[0, 1]),
    (15, &[0, 1, 2, 3, 4, 5]),
    (10, &[3, 4, 5]),
    (5, &[2]),
];

const BAY_HEAD: Head = Head { benches: 5, p: 4, q: 7, target: 480 };

/// A job is heavy above 274 minutes: 7 × 275 > 4 × 480. The longest has 300 minutes, so a job with
/// three or more benches may have 171.
const BAY: [(u64, &[u64]); 34] = [
    (300, &[0, 1]),
    (285, &[1, 2]),
    (280, &[2, 3]),
    (290, &[3, 4]),
    (20, &[0, 1, 2, 3, 4]),
    (25, &[0, 1, 2, 3, 4]),
    (30, &[0, 1, 2]),
    (15, &[0, 1, 2, 3, 4]),
    (40, &[0, 3]),
    (35, &[0, 2, 4]),
    (45, &[0, 1, 2, 3, 4]),
    (30, &[0, 4]),
    (20, &[0, 1]),
    (50, &[0, 1, 2, 3]),
    (25, &[0, 3, 4]),
    (60, &[0]),
    (45, &[2]),
    (30, &[4]),
    (55, &[0, 1]),
    (40, &[0, 1, 2, 3, 4]),
    (75, &[0, 2]),
    (90, &[0, 1, 2, 3, 4]),
    (60, &[0, 4]),
    (35, &[1]),
    (30, &[0, 3]),
    (45, &[0, 1, 4]),
    (50, &[0, 1, 2, 3, 4]),
    (25, &[0, 2, 3]),
    (40, &[3]),
    (60, &[1, 3]),
    (60, &[0, 4]),
    (35, &[0, 1, 2, 3, 4]),
    (20, &[0, 1, 2]),
    (45, &[0, 2]),
];

#[cfg(test)]
mod tests {
    use super::*;
    use crate::codec::door::Codec;
    use crate::codec::fault::Fault;
    use crate::corpus::{print_answer, print_best};
    use crate::planner::algorithm::{Planner, Rooms};

    #[test]
    fn the_folder_has_these_bytes() {
        let folder = concat!(env!("CARGO_MANIFEST_DIR"), "/../../samples/");
        for (name, bytes) in all() {
            let file = std::fs::read(format!("{folder}{name}")).expect(name);
            assert_eq!(file, bytes, "{name}");
        }
    }

    #[test]
    fn the_samples_read_as_they_are_described() {
        let mut codec = Codec::default();
        assert_eq!(codec.read(&example_12()).map(|sheet| sheet.jobs().len()), Ok(3));
        assert_eq!(codec.read(&day()).map(|sheet| sheet.jobs().len()), Ok(40));
        assert_eq!(codec.read(&faulty()).err(), Some(Fault { number: 6, place: 24 }));
    }

    #[test]
    fn the_bay_samples_plan_as_they_are_described() {
        let plan = |sheet: &[u8]| print_answer(Planner::new().plan(sheet, Rooms::FULL));
        let planned = |sheet: &[u8], front: &str, loads: &str| {
            let answer = plan(sheet);
            assert!(answer.starts_with(front) && answer.ends_with(loads), "{answer}");
        };
        planned(&bay(), "plan 860 6 0; places", "loads 860 485 365 360 320");
        planned(&booked(), "plan 870 11 0; places", "loads 870 600 365 505 350");
        planned(&checks(), "plan 860 7 0; places 1 2 3 4 1 2", "0 3; loads 860 485 365 360 320");
        assert_eq!(plan(&none()), "none 37; benches 0 1");
    }
    #[test]
    fn the_bay_samples_have_the_best_targets_that_are_described() {
        let best = |sheet: &[u8], front: &str, loads: &str| {
            let answer = print_best(Planner::new().best(sheet, Rooms::FULL));
            assert!(answer.starts_with(front) && answer.ends_with(loads), "{answer}");
        };
        best(&bay(), "best 323 13; plan 580 12 0; places", "loads 580 440 455 410 505");
        best(&booked(), "best 377 12; plan 700 13 0; places", "loads 700 485 500 480 525");
        best(&none(), "best 517 13; plan 960 38 0; places", "loads 960 710 500 635 785");
        best(&example_12(), "best 9 5; plan 15 0 0; places 0 0 0; ", "loads 15 0");
    }
}
