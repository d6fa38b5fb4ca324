//! Small days with their answers as text, tests/plans/expected.txt. Each case has these lines,
//! `booked` and `without` only where benches are booked; `without` is the answer without bookings:
//!
//! ```text
//! case: what it tells apart
//! head: 2 benches, share 4/7, target 4
//! booked: 3 on 1
//! jobs: 2 on 0 1; 2 on 0 1; 2 on 0 1; 2 on 0 1
//! without: plan 6 1 0; places 1 0 0 0; loads 6 2
//! answer: plan 6 1 0; places 1 0 0 0; loads 6 5
//! ```
//!
//! A plan has the largest load, the moves and the fullest bench. The other answers are
//! `none MOVES; benches B ...`, `long JOB` and `fault NUMBER PLACE`. Lines that start with # and
//! empty lines say nothing.
//!
//! The days of tests/plans/best.txt have their best targets, with a line `tried` before the answer:
//! the targets in the order of their runs, + for a plan and - for one that is refused.
//!
//! ```text
//! tried: 8+ 4+ 2- 3-
//! answer: best 4 4; plan 6 1 0; places 1 0 0 0; loads 6 2
//! ```
//!
//! An answer there has the target and the number of targets run, then the plan of that target.

use crate::codec::door::Codec;
use crate::codec::fault::Fault;
use crate::codec::sheet::{Booked, Head, Job, NOTHING_BOOKED};
use crate::gen::day::Day;
use crate::planner::algorithm::{Answer, Planner, Rooms};
use crate::planner::best::Best;
use crate::planner::set::Set;

pub const TEXT: &str = include_str!("../../plans/expected.txt");
pub const BEST_TEXT: &str = include_str!("../../plans/best.txt");

/// Full sheets with a long run, found by `search`.
pub const SLOW: [(&str, &[u8]); 3] = [
    ("slow 1, 54/87", include_bytes!("../../plans/slow-1.sheet")),
    ("slow 2, 54/87", include_bytes!("../../plans/slow-2.sheet")),
    ("slow 3, 19/20", include_bytes!("../../plans/slow-3.sheet")),
];

/// One case; the answers stay text.
#[derive(Clone, Debug)]
pub struct Case {
    pub name: String,
    pub day: Day,
    pub without: Option<String>,
    pub tried: Option<String>,
    pub answer: String,
}

/// The cases of a text in that form.
pub fn cases(text: &str) -> Vec<Case> {
    each_case(text, |lines| Case {
        name: lines.value("case:").to_string(),
        day: lines.day(),
        without: lines.find("without:").map(str::to_string),
        tried: lines.find("tried:").map(str::to_string),
        answer: lines.value("answer:").to_string(),
    })
}

/// Makes something of the lines of each case of a text.
pub fn each_case<C>(text: &str, case: impl Fn(Lines) -> C) -> Vec<C> {
    let wanted = |line: &&str| !line.trim().is_empty() && !line.starts_with('#');
    let lines: Vec<&str> = text.lines().filter(wanted).collect();
    let cases = lines.chunk_by(|_, next| !next.starts_with("case:"));
    cases.map(|lines| case(Lines(lines))).collect()
}

/// The lines of one case, each with a key in front.
pub struct Lines<'a>(&'a [&'a str]);

impl<'a> Lines<'a> {
    pub fn find(&self, key: &str) -> Option<&'a str> {
        self.0.iter().find_map(|line| line.strip_prefix(key)).map(str::trim)
    }

    pub fn value(&self, key: &str) -> &'a str {
        self.find(key).unwrap_or_else(|| panic!("no `{key}` in {:?}", self.0))
    }

    pub fn day(&self) -> Day {
        let head = numbers(self.value("head:"));
        let job = |numbers: Vec<u64>| Job { minutes: numbers[0], allowed: set(&numbers[1..]).0 };
        Day {
            head: Head { benches: head[0], p: head[1], q: head[2], target: head[3] },
            booked: booked(self.find("booked:").unwrap_or("")),
            jobs: rows(self.value("jobs:")).map(job).collect(),
        }
    }
}

/// The set of these benches.
pub fn set(benches: &[u64]) -> Set {
    benches.iter().fold(Set::EMPTY, |all, &bench| all | Set::one(bench as usize))
}

/// Minutes and benches of each part of a text between semicolons.
fn rows(text: &str) -> impl Iterator<Item = Vec<u64>> + '_ {
    text.split(';').map(numbers).filter(|numbers| !numbers.is_empty())
}

fn booked(text: &str) -> Booked {
    let mut booked = NOTHING_BOOKED;
    for row in rows(text) {
        booked[row[1] as usize] = row[0];
    }
    booked
}

/// The numbers in a text, in order.
pub fn numbers(text: &str) -> Vec<u64> {
    let digits = text.split(|letter: char| !letter.is_ascii_digit());
    digits.filter_map(|digits| digits.parse().ok()).collect()
}

/// An answer as the text has it.
pub fn print_answer(answer: Result<Answer, Fault>) -> String {
    match answer {
        Err(Fault { number, place }) => format!("fault {number} {place}"),
        Ok(Answer::Long { job }) => format!("long {job}"),
        Ok(Answer::None { benches, moves }) => format!("none {moves}; benches{}", row(benches)),
        Ok(Answer::Plan { largest, moves, fullest, places, loads }) => {
            let (places, loads) = (row(places), row(loads));
            format!("plan {largest} {moves} {fullest}; places{places}; loads{loads}")
        }
    }
}

/// A best target as the text has it.
pub fn print_best(best: Result<Best, Fault>) -> String {
    match best {
        Err(fault) => print_answer(Err(fault)),
        Ok(best) => {
            format!("best {} {}; {}", best.target, best.runs, print_answer(Ok(best.plan())))
        }
    }
}

fn row<N: ToString>(numbers: impl IntoIterator<Item = N>) -> String {
    numbers.into_iter().map(|number| format!(" {}", number.to_string())).collect()
}

/// A case as the text has it.
pub fn print_case(case: &Case) -> String {
    let Head { benches, p, q, target } = case.day.head;
    let job = |job: &Job| format!("{} on{}", job.minutes, row(Set(job.allowed)));
    let jobs: Vec<String> = case.day.jobs.iter().map(job).collect();
    let line = |key: &str, text: &Option<String>| {
        text.as_ref().map(|text| format!("{key}: {text}\n")).unwrap_or_default()
    };
    format!(
        "case: {}\nhead: {benches} benches, share {p}/{q}, target {target}\n\
         {}jobs: {}\n{}{}answer: {}\n",
        case.name,
        booked_line(&case.day.booked),
        jobs.join("; "),
        line("without", &case.without),
        line("tried", &case.tried),
        case.answer
    )
}

/// An accepted sheet as a case, with the second planner's answer.
pub fn case_of(sheet: &[u8]) -> Option<Case> {
    let mut codec = Codec::default();
    let day = Day::of(codec.read(sheet).ok()?);
    let answer = print_answer(Planner::new().plan(sheet, Rooms::FULL));
    Some(Case { name: "failed".to_string(), day, without: None, tried: None, answer })
}

/// Empty where no bench is booked.
fn booked_line(booked: &Booked) -> String {
    let benches = booked.iter().enumerate().filter(|&(_, &minutes)| minutes > 0);
    let rows: Vec<String> =
        benches.map(|(bench, minutes)| format!("{minutes} on {bench}")).collect();
    if rows.is_empty() {
        String::new()
    } else {
        format!("booked: {}\n", rows.join("; "))
    }
}

#[cfg(test)]
mod tests {
    use super::*;
    use crate::planner::best::{search, start};

    #[test]
    fn the_corpus_has_these_answers() {
        let mut planner = Planner::new();
        let cases = cases(TEXT);
        assert!(cases.len() >= 10);
        for case in cases {
            let answer = planner.plan(&case.day.draft().bytes(), Rooms::FULL);
            assert_eq!(print_answer(answer), case.answer, "{}", case.name);
        }
    }

    #[test]
    fn days_with_bookings_have_these_answers_without() {
        let mut planner = Planner::new();
        let is_booked = |case: &Case| case.day.booked != NOTHING_BOOKED;
        let cases: Vec<Case> = cases(TEXT).into_iter().filter(is_booked).collect();
        assert!(cases.len() >= 10);
        for Case { name, day, without, .. } in cases {
            let day = Day { booked: NOTHING_BOOKED, ..day };
            let answer = planner.plan(&day.draft().bytes(), Rooms::FULL);
            assert_eq!(Some(print_answer(answer)), without, "{name}");
        }
    }

    #[test]
    fn days_have_these_best_targets() {
        let mut planner = Planner::new();
        let cases = cases(BEST_TEXT);
        assert!(cases.len() >= 10);
        for case in cases {
            let best = planner.best(&case.day.draft().bytes(), Rooms::FULL);
            assert_eq!(print_best(best), case.answer, "{}", case.name);
        }
    }

    #[test]
    fn these_targets_are_tried() {
        let (mut planner, mut codec) = (Planner::new(), Codec::default());
        let cases: Vec<Case> = cases(BEST_TEXT);
        assert!(cases.iter().filter(|case| case.tried.is_some()).count() >= 10);
        for Case { name, day, tried, .. } in cases {
            let bytes = day.draft().bytes();
            let Ok(sheet) = codec.read(&bytes) else { continue };
            let mut found = Vec::new();
            search(start(sheet), |target| {
                let is_plan = matches!(planner.plan_at(sheet, target), Answer::Plan { .. });
                found.push(format!("{target}{}", if is_plan { '+' } else { '-' }));
                is_plan.then_some(())
            });
            assert_eq!(Some(found.join(" ")), tried, "{name}");
        }
    }

    #[test]
    fn cases_are_printed_as_they_are_read() {
        for text in [TEXT, BEST_TEXT] {
            let printed: String = cases(text).iter().map(|case| print_case(case) + "\n").collect();
            let reread: String =
                cases(&printed).iter().map(|case| print_case(case) + "\n").collect();
            assert_eq!(printed, reread);
        }
    }
}
