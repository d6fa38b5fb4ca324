//! What the programs behind `./bay`, `./show` and `./best` print for a sheet.

use crate::codec::door::Codec;
use crate::codec::fault::Fault;
use crate::codec::sheet::{Head, Sheet};
use crate::planner::algorithm::{Answer, Planner, Rooms};
use crate::planner::best::Best;
use crate::planner::set::Set;

/// The text of the bay program: "`plan 5 0` (largest load, moves) and `0 0` (job, bench; one line a
/// job). Else one line: `long` and the job; `none`, the moves and the benches rising; `fault`,
/// number and place." Of the fullest bench: "A plan's line prints it after the moves, so example 2
/// begins `plan 5 0 0`".
pub fn bay(planner: &mut Planner, sheet: &[u8]) -> String {
    match planner.plan(sheet, Rooms::FULL) {
        Err(fault) => fault_line(fault),
        Ok(Answer::Long { job }) => format!("long {job}\n"),
        Ok(Answer::None { benches, moves }) => format!("none {moves}{}\n", spaced(benches)),
        Ok(Answer::Plan { largest, moves, fullest, places, .. }) => {
            plan_lines(largest, moves, fullest, places)
        }
    }
}

/// The text of the best program: `best`, the target and the number of targets run, then the lines
/// of that target's plan; or the fault's.
pub fn best(planner: &mut Planner, sheet: &[u8]) -> String {
    match planner.best(sheet, Rooms::FULL) {
        Err(fault) => fault_line(fault),
        Ok(Best { target, runs, largest, moves, fullest, places, .. }) => {
            format!("best {target} {runs}\n") + &plan_lines(largest, moves, fullest, places)
        }
    }
}

/// The text of the show program: a line for the head, one for each bench with a booking above 0,
/// and one for each job; or the fault's.
pub fn show(codec: &mut Codec, sheet: &[u8]) -> String {
    match codec.read(sheet) {
        Err(fault) => fault_line(fault),
        Ok(sheet) => head_line(sheet) + &booking_lines(sheet) + &job_lines(sheet),
    }
}

fn head_line(sheet: &Sheet) -> String {
    let Head { benches, p, q, target } = sheet.head();
    let jobs = sheet.jobs().len();
    format!("{benches} benches, share {p}/{q}, target {target} minutes, {jobs} jobs\n")
}

fn booking_lines(sheet: &Sheet) -> String {
    let benches = sheet.booked().iter().enumerate();
    let booked = benches.filter(|&(_, &minutes)| minutes > 0);
    booked.map(|(bench, minutes)| format!("bench {bench}: {minutes} minutes booked\n")).collect()
}

fn job_lines(sheet: &Sheet) -> String {
    let jobs = sheet.jobs().iter().enumerate();
    jobs.map(|(number, job)| {
        let benches = spaced(Set(job.allowed));
        format!("job {number}: {} minutes, benches{benches}\n", job.minutes)
    })
    .collect()
}

fn plan_lines(largest: u64, moves: u64, fullest: usize, places: &[u64]) -> String {
    let line = |(job, bench)| format!("{job} {bench}\n");
    let lines: String = places.iter().enumerate().map(line).collect();
    format!("plan {largest} {moves} {fullest}\n{lines}")
}

fn fault_line(Fault { number, place }: Fault) -> String {
    format!("fault {number} {place}\n")
}

/// The benches rising, each behind a space.
fn spaced(benches: Set) -> String {
    benches.map(|bench| format!(" {bench}")).collect()
}

#[cfg(test)]
mod tests {
    use super::*;
    use crate::corpus;
    use crate::samples;

    fn example(name: &str) -> Vec<u8> {
        let cases = corpus::cases(corpus::TEXT);
        let case = cases.iter().find(|case| case.name == name).expect("the corpus has it");
        case.day.draft().bytes()
    }

    #[test]
    fn the_bay_program_prints_the_lines_of_the_papers() {
        let mut planner = Planner::new();
        assert_eq!(bay(&mut planner, &example("example 2")), "plan 5 0 0\n0 0\n");
        assert_eq!(bay(&mut planner, &example("example 7")), "plan 5 0 1\n0 1\n");
        assert_eq!(bay(&mut planner, &example("example 3")), "long 0\n");
        assert_eq!(bay(&mut planner, &example("example 4")), "none 0 0 1\n");
        assert_eq!(bay(&mut planner, &[]), "fault 2 0\n");
    }

    #[test]
    fn the_best_program_prints_the_target_and_the_plan() {
        let mut planner = Planner::new();
        for name in ["example 2", "example 3"] {
            assert_eq!(best(&mut planner, &example(name)), "best 5 3\nplan 5 0 0\n0 0\n");
        }
        assert_eq!(best(&mut planner, &example("example 1")), "best 0 1\nplan 0 0 0\n");
        assert_eq!(best(&mut planner, &example("example 7")), "best 5 3\nplan 5 0 1\n0 1\n");
        let lines = "best 4 4\nplan 6 1 0\n0 1\n1 0\n2 0\n3 0\n";
        assert_eq!(best(&mut planner, &example("example 8")), lines);
        assert_eq!(best(&mut planner, &[]), "fault 2 0\n");
        assert_eq!(best(&mut planner, &samples::faulty()), "fault 6 24\n");
    }

    #[test]
    fn the_show_program_prints_head_and_jobs() {
        let mut codec = Codec::default();
        let job = "5 minutes, benches 0 1";
        let head = "2 benches, share 4/7, target 9 minutes, 3 jobs";
        let lines = format!("{head}\njob 0: {job}\njob 1: {job}\njob 2: {job}\n");
        assert_eq!(show(&mut codec, &samples::example_12()), lines);
        assert_eq!(show(&mut codec, &samples::faulty()), "fault 6 24\n");
    }

    #[test]
    fn jobs_of_0_minutes_have_their_lines() {
        let shown = show(&mut Codec::default(), &samples::checks());
        let lines: Vec<&str> = shown.lines().skip(5).take(2).collect();
        assert_eq!(lines, ["job 4: 0 minutes, benches 0 1 2 3 4", "job 5: 0 minutes, benches 2"]);
        let planned = bay(&mut Planner::new(), &samples::checks());
        assert!(planned.starts_with("plan 860 7 0\n0 1\n1 2\n2 3\n3 4\n4 1\n5 2\n6 1\n"));
        assert!(planned.ends_with("\n36 0\n37 3\n"));
    }

    #[test]
    fn the_show_program_prints_bookings_by_rising_bench() {
        let text = show(&mut Codec::default(), &samples::booked());
        let lines: Vec<&str> = text.lines().take(4).collect();
        let expected = [
            "5 benches, share 4/7, target 480 minutes, 34 jobs",
            "bench 0: 180 minutes booked",
            "bench 3: 120 minutes booked",
            "job 0: 300 minutes, benches 0 1",
        ];
        assert_eq!(lines, expected);
    }
}
