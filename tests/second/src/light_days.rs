//! The light days: full sheets, 512 jobs on 64 benches, on which every job is light and has a choice
//! of two benches or more. tests/plans/light.txt has their answers.
//!
//! Most targets are those where none turns to plan, or one below. They stand here as numbers, so
//! that the sheets depend on no planner.

use crate::codec::sheet::Head;
use crate::gen::bay::light::Choice;
use crate::gen::bay::light_only;
use crate::gen::day::Day;
use crate::gen::{bookings, check_only};
use crate::rng::Rng;

/// Random days: name, head, least and most minutes of all jobs but the longest, their choice, and
/// the seed.
const RANDOM: [(&str, Head, [u64; 2], Choice, u64); 9] = [
    ("next bench, no move", head(3, 4, 446), [1, 100], Choice::Next, 1),
    ("next bench, too much", head(3, 4, 200), [50, 100], Choice::Next, 2),
    ("next bench, plan", head(3, 4, 316), [1, 100], Choice::Next, 3),
    ("next bench, none", head(3, 4, 315), [1, 100], Choice::Next, 3),
    ("two benches, few moves", head(4, 7, 1440), [1, 300], Choice::Few, 1),
    ("two benches, plan", head(3, 4, 283), [1, 100], Choice::Few, 1),
    ("everywhere, plan", head(3, 4, 311), [1, 100], Choice::Everywhere, 1),
    ("everywhere, none", head(3, 4, 310), [1, 100], Choice::Everywhere, 1),
    ("many minutes, mixed", head(9, 10, 324_542), [1, 100_000], Choice::Mixed, 1),
];

const fn head(p: u64, q: u64, target: u64) -> Head {
    Head { benches: 64, p, q, target }
}

/// Each day with its name.
pub fn all() -> Vec<(&'static str, Day)> {
    let random = RANDOM.map(|(name, head, minutes, choice, seed)| {
        (name, light_only::random(&mut Rng::new(seed), head, minutes, choice))
    });
    let others = [
        ("booked benches, plan", booked()),
        ("check-only jobs, none", with_check_only()),
        ("ladder of 8, plan", ladder(&mut Rng::new(1), 8, 4)),
        ("ladder of 20, all sorts", ladder_of_all_sorts()),
        ("ladder of 63, plan", ladder(&mut Rng::new(1), 63, 4)),
        ("ladder of 63, none", ladder(&mut Rng::new(1), 63, 7)),
    ];
    random.into_iter().chain(others).collect()
}

/// Bookings on every bench.
fn booked() -> Day {
    let mut rng = Rng::new(6);
    let mut day = light_only::random(&mut rng, head(2, 3, 400), [1, 100], Choice::Many);
    day.booked = bookings::for_run(&mut rng, day.head);
    day.head.target = 355;
    day
}

/// About half of the jobs are check-only.
fn with_check_only() -> Day {
    let mut rng = Rng::new(8);
    let mut day = light_only::random(&mut rng, head(4, 5, 160), [1, 100], Choice::Mixed);
    check_only::make(&mut rng, &mut day.jobs);
    day
}

/// With so many long jobs on the lowest bench: up to 6 of them there is a plan.
fn ladder(rng: &mut Rng, steps: u64, lowest: usize) -> Day {
    light_only::ladder(rng, head(4, 7, 10_000), steps, lowest)
}

/// A ladder with bookings on every bench and with check-only jobs.
fn ladder_of_all_sorts() -> Day {
    let mut rng = Rng::new(14);
    let mut day = ladder(&mut rng, 20, 8);
    check_only::make(&mut rng, &mut day.jobs);
    day.booked = bookings::for_run(&mut rng, day.head);
    day
}

#[cfg(test)]
mod tests {
    use super::*;
    use crate::codec::sheet::{MAX_JOBS, NOTHING_BOOKED};
    use crate::planner::algorithm::{Answer, Planner, Rooms};
    use crate::planner::bay::is_heavy;
    use std::collections::BTreeSet;

    #[test]
    fn every_day_is_full_and_every_job_light_with_a_choice() {
        for (name, Day { head, jobs, .. }) in all() {
            assert_eq!((head.benches, jobs.len()), (64, MAX_JOBS), "{name}");
            assert!(jobs.iter().all(|job| !is_heavy(head, job)), "{name}");
            assert!(jobs.iter().all(|job| job.allowed.count_ones() >= 2), "{name}");
        }
    }

    #[test]
    fn names_differ() {
        let days = all();
        let names: BTreeSet<&str> = days.iter().map(|&(name, _)| name).collect();
        assert_eq!(names.len(), days.len());
    }

    /// The plans and the nones with such moves.
    fn answers(runs: &[(bool, u64)], [least, most]: [u64; 2]) -> [usize; 2] {
        let count = |plan| {
            runs.iter().filter(|run| run.0 == plan && (least..=most).contains(&run.1)).count()
        };
        [count(true), count(false)]
    }

    #[test]
    fn moves_are_few_and_many_and_both_answers_are_met() {
        let mut planner = Planner::new();
        let (mut runs, mut deep) = (Vec::new(), 0);
        for (name, day) in all() {
            match planner.plan(&day.draft().bytes(), Rooms::FULL) {
                Ok(Answer::Plan { moves, .. }) => runs.push((true, moves)),
                Ok(Answer::None { moves, .. }) => runs.push((false, moves)),
                other => panic!("{name}: {other:?}"),
            }
            deep += usize::from(planner.counts().explored.highest_level >= 4);
        }
        assert_eq!(answers(&runs, [0, 0]), [1, 0]);
        assert_eq!(answers(&runs, [1, 20]), [1, 1]);
        assert_eq!(answers(&runs, [100, 600]), [5, 3]);
        assert_eq!(answers(&runs, [4_000, 20_000]), [1, 1]);
        assert_eq!(answers(&runs, [25_000, u64::MAX]), [1, 1]);
        assert_eq!(deep, 8);
    }

    #[test]
    fn days_are_what_their_names_say() {
        let day = |wanted| all().into_iter().find(|&(name, _)| name == wanted).expect(wanted).1;
        let with = |day: &Day, benches| {
            day.jobs.iter().filter(|job| job.allowed.count_ones() == benches).count()
        };
        assert_eq!(with(&day("two benches, plan"), 2), MAX_JOBS);
        // All but the longest.
        assert_eq!(with(&day("everywhere, plan"), 64), MAX_JOBS - 1);
        let minutes =
            |day: &Day| -> BTreeSet<u64> { day.jobs.iter().map(|job| job.minutes).collect() };
        assert!(minutes(&day("many minutes, mixed")).len() > 500);
        assert!(day("booked benches, plan").booked.iter().all(|&minutes| minutes > 0));
        let checks = |day: &Day| day.jobs.iter().filter(|job| job.minutes == 0).count();
        assert_eq!(checks(&day("check-only jobs, none")), 240);
        let ladder = day("ladder of 20, all sorts");
        assert!(checks(&ladder) > 100 && ladder.booked != NOTHING_BOOKED);
    }
}
