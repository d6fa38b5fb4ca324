//! What the tally counts of a sheet and its answer.

use second::codec::sheet::{Head, Job, Sheet};
use second::planner::algorithm::Answer;

/// Whether the sheet is full, what is booked, which jobs are check-only and where a plan has them,
/// and which bench of a plan is the fullest.
pub fn kinds(sheet: &Sheet, answer: &Answer) -> Vec<String> {
    match *answer {
        Answer::Long { .. } => sheet_kinds(sheet, "long"),
        Answer::None { .. } => sheet_kinds(sheet, "none"),
        Answer::Plan { moves, fullest, places, loads, .. } => {
            let plan = Plan { sheet, moves, fullest, places, loads };
            [sheet_kinds(sheet, "plan"), plan.check_only(), plan.kinds()].concat()
        }
    }
}

/// The kinds of those that hold.
pub fn that_hold<K, const N: usize>(all: [(bool, K); N]) -> Vec<K> {
    all.into_iter().filter(|(holds, _)| *holds).map(|(_, kind)| kind).collect()
}

fn sheet_kinds(sheet: &Sheet, name: &str) -> Vec<String> {
    let Head { benches, p, q, target } = sheet.head();
    let most_booked = sheet.booked().iter().copied().max().unwrap_or(0);
    let full = sheet.jobs().len() == 512 && benches == 64;
    let some = sheet.jobs().iter().any(is_check_only);
    let all = some && sheet.jobs().iter().all(is_check_only);
    that_hold([
        (full, "full sheet".to_string()),
        (full && most_booked > 0, "full sheet with bookings".to_string()),
        (full && all, "full sheet with check-only jobs alone".to_string()),
        (some, format!("{name} with check-only jobs")),
        (some && target == 0, format!("{name} with check-only jobs, T = 0")),
        (all, format!("{name} with check-only jobs alone")),
        (all && target == 0, format!("{name} with check-only jobs alone, T = 0")),
        (most_booked > 0, format!("{name} with bookings")),
        (most_booked > target, format!("{name} with a booking above T")),
        (
            3 * q * most_booked > (5 * q + p) * target,
            format!("{name} with a booking above the bound"),
        ),
    ])
}

fn is_check_only(job: &Job) -> bool {
    job.minutes == 0
}

struct Plan<'a> {
    sheet: &'a Sheet,
    moves: u64,
    fullest: usize,
    places: &'a [u64],
    loads: &'a [u64],
}

impl Plan<'_> {
    fn is_booked(&self, bench: usize) -> bool {
        self.sheet.booked()[bench] > 0
    }

    /// The number of jobs on a bench.
    fn jobs(&self, bench: usize) -> usize {
        self.places.iter().filter(|&&place| place == bench as u64).count()
    }

    /// The minutes of the jobs on a bench.
    fn minutes(&self, bench: usize) -> u64 {
        self.loads[bench] - self.sheet.booked()[bench]
    }

    /// A light job starts on its lowest bench, so that one on another bench has moved.
    fn check_only(&self) -> Vec<String> {
        let jobs = self.sheet.jobs().iter().zip(self.places);
        let some = || jobs.clone().filter(|(job, _)| is_check_only(job));
        let lowest = |job: &Job| u64::from(job.allowed.leading_zeros());
        that_hold(
            [
                (some().any(|(job, _)| job.allowed.count_ones() > 2), "on three benches or more"),
                (some().any(|(job, &place)| place != lowest(job)), "that moved"),
            ]
            .map(|(holds, kind)| (holds, format!("plan with a check-only job {kind}"))),
        )
    }

    fn kinds(&self) -> Vec<String> {
        let fullest = self.fullest;
        let above_0 = fullest > 0;
        let booked = self.is_booked(fullest);
        let others = || (0..self.loads.len()).filter(|&bench| bench != fullest);
        let as_full = || others().filter(|&bench| self.loads[bench] == self.loads[fullest]);
        let tied = as_full().next().is_some();
        let all = [
            (above_0, "above 0"),
            (above_0 && self.moves > 0, "above 0, after moves"),
            (tied, "with others as full"),
            (tied && above_0, "above 0, with others as full"),
            (tied && self.moves > 0, "with others as full, after moves"),
            (tied && self.loads[fullest] == 0, "with nothing to do, of several"),
            (booked, "booked"),
            (booked && self.jobs(fullest) == 0, "booked, without a job"),
            (booked && as_full().any(|bench| !self.is_booked(bench)), "booked, one as full not"),
            (!booked && as_full().any(|bench| self.is_booked(bench)), "not booked, one as full is"),
            (others().any(|bench| self.jobs(bench) > self.jobs(fullest)), "with fewer jobs"),
            (others().any(|bench| self.minutes(bench) > self.minutes(fullest)), "by its booking"),
        ];
        that_hold(all.map(|(holds, kind)| (holds, format!("fullest bench {kind}"))))
    }
}
