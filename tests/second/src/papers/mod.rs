//! Lists, sets and pages of sets from elsewhere with what their checks say, as text:
//! tests/plans/checks.txt, and tests/plans/pages.txt for pages. A case has a day in the form of
//! `corpus`, then a list of places, a set of benches or a page of sets, the mistakes that would lead
//! to another answer, and the answer:
//!
//! ```text
//! case: what it tells apart
//! head: 2 benches, share 4/7, target 8
//! jobs: 8 on 0; 8 on 0 1; 1 on 1
//! set: 1
//! least: 9
//! wrong: heavy jobs with one bench drive no other away
//! answer: passed
//! ```
//!
//! `least` is the least weight that a placement leaves in the set, or `none`; it is there where the
//! set is judged. A list has the line `list` with its places. A passed list has the largest load
//! and the fullest bench in its answer. The other answers are `not passed`, `long JOB` and
//! `fault NUMBER PLACE`.
//!
//! A page has the line `page` with its sets, semicolons between them and `-` for an empty set, and
//! in `least` the least weight of each. If it is not passed, its answer has the number of the set
//! that is named:
//!
//! ```text
//! page: 0 2; -; 1
//! answer: fault 17 1
//! ```
//!
//! - `mistakes`: checks that make one of the mistakes, for the tests.

#[cfg(test)]
mod mistakes;
#[cfg(test)]
mod papers_tests;

use crate::codec::fault::Fault;
use crate::corpus::{each_case, numbers, set, Lines};
use crate::gen::day::Day;
use crate::planner::algorithm::Planner;
use crate::planner::checker::{ListCheck, PageCheck, SetCheck};
use crate::planner::set::Set;

const TEXT: &str = include_str!("../../../plans/checks.txt");
const PAGES_TEXT: &str = include_str!("../../../plans/pages.txt");

#[derive(Clone, Debug, PartialEq, Eq)]
pub enum Paper {
    List(Vec<u64>),
    Set(Set),
    Page(Vec<Set>),
}

/// One case; least weight and answer stay text.
#[derive(Clone, Debug)]
pub struct Case {
    pub name: String,
    pub day: Day,
    pub paper: Paper,
    pub least: Option<String>,
    pub mistakes: Vec<String>,
    pub answer: String,
}

/// The cases of both texts.
pub fn all() -> Vec<Case> {
    [TEXT, PAGES_TEXT].into_iter().flat_map(cases).collect()
}

/// The cases of a text in that form.
fn cases(text: &str) -> Vec<Case> {
    each_case(text, |lines| {
        let mistakes = lines.find("wrong:").map_or(Vec::new(), |names| names.split("; ").collect());
        Case {
            name: lines.value("case:").to_string(),
            day: lines.day(),
            paper: paper(&lines),
            least: lines.find("least:").map(str::to_string),
            mistakes: mistakes.into_iter().map(str::to_string).collect(),
            answer: lines.value("answer:").to_string(),
        }
    })
}

fn paper(lines: &Lines) -> Paper {
    match (lines.find("list:"), lines.find("page:")) {
        (Some(places), _) => Paper::List(numbers(places)),
        (_, Some(sets)) => Paper::Page(page(sets)),
        _ => Paper::Set(set(&numbers(lines.value("set:")))),
    }
}

/// The sets between the semicolons of a text, none if it is empty.
fn page(text: &str) -> Vec<Set> {
    let sets = text.split(';').filter(|_| !text.is_empty());
    sets.map(|benches| set(&numbers(benches))).collect()
}

/// What the second planner says of a paper, as the text has it.
pub fn check(planner: &mut Planner, sheet: &[u8], paper: &Paper) -> String {
    match paper {
        Paper::List(places) => print_list(planner.check_plan(sheet, places.iter().copied(), true)),
        Paper::Set(set) => print_set(planner.check_set(sheet, *set, true)),
        Paper::Page(sets) => print_page(planner.check_page(sheet, sets.iter().copied(), true)),
    }
}

pub fn print_list(check: Result<ListCheck, Fault>) -> String {
    match check {
        Err(fault) => print_fault(fault),
        Ok(ListCheck::NotPassed) => "not passed".to_string(),
        Ok(ListCheck::Passed { largest, fullest }) => format!("passed {largest} {fullest}"),
    }
}

pub fn print_set(check: Result<SetCheck, Fault>) -> String {
    match check {
        Err(fault) => print_fault(fault),
        Ok(SetCheck::Passed) => "passed".to_string(),
        Ok(SetCheck::NotPassed) => "not passed".to_string(),
        Ok(SetCheck::Long { job }) => format!("long {job}"),
    }
}

pub fn print_page(check: Result<PageCheck, Fault>) -> String {
    match check {
        Err(fault) => print_fault(fault),
        Ok(PageCheck::Passed) => "passed".to_string(),
        Ok(PageCheck::NotPassed { set }) => format!("not passed {set}"),
        Ok(PageCheck::Long { job }) => format!("long {job}"),
    }
}

fn print_fault(Fault { number, place }: Fault) -> String {
    format!("fault {number} {place}")
}
