//! The cases of tests/plans/checks.txt and tests/plans/pages.txt: their answers and least weights,
//! and the mistakes that they tell apart.

use super::mistakes::{self, MISTAKES, PAGE_MISTAKES};
use super::{all, check, Case, Paper};
use crate::codec::door::Codec;
use crate::judge::weight_of_lightest;
use crate::planner::algorithm::Planner;
use crate::planner::least::least_weight;
use crate::planner::set::Set;
use std::collections::BTreeSet;

#[test]
fn papers_have_these_answers() {
    let mut planner = Planner::new();
    let cases = all();
    let pages = cases.iter().filter(|case| matches!(case.paper, Paper::Page(_))).count();
    assert!(cases.len() - pages >= 60 && pages >= 40);
    for Case { name, day, paper, answer, .. } in cases {
        let sheet = day.draft().bytes();
        assert_eq!(check(&mut planner, &sheet, &paper), answer, "{name}");
        assert_eq!(mistakes::check(&sheet, &paper, ""), answer, "{name}");
    }
}

#[test]
fn sets_have_these_least_weights() {
    let mut codec = Codec::default();
    let print =
        |weight: Option<u64>| weight.map_or("none".to_string(), |weight| weight.to_string());
    for Case { name, day, paper, least, answer, .. } in all() {
        let bytes = day.draft().bytes();
        let judged = answer.starts_with("passed") || answer.starts_with("not passed");
        let sets: Vec<Set> = match paper {
            Paper::Set(set) if judged => vec![set],
            Paper::Page(sets) if judged && !sets.is_empty() => sets,
            _ => {
                assert_eq!(least, None, "{name}");
                continue;
            }
        };
        let sheet = codec.read(&bytes).expect("accepted");
        let row = |weight: &dyn Fn(Set) -> Option<u64>| {
            Some(sets.iter().map(|&set| print(weight(set))).collect::<Vec<String>>().join("; "))
        };
        assert_eq!(row(&|set| least_weight(sheet, set)), least, "{name}");
        assert_eq!(row(&|set| weight_of_lightest(sheet, set)), least, "{name}");
    }
}

#[test]
fn each_mistake_leads_to_another_answer_where_a_case_says_so() {
    let mut met = BTreeSet::new();
    for case in all() {
        for mistake in &case.mistakes {
            assert!(mistakes::is_known(mistake), "{}: {mistake}", case.name);
            let found = mistakes::check(&case.day.draft().bytes(), &case.paper, mistake);
            assert_ne!(found, case.answer, "{}: {mistake}", case.name);
            met.insert(mistake.clone());
        }
    }
    for mistake in MISTAKES.iter().chain(&PAGE_MISTAKES).copied() {
        assert!(met.contains(mistake), "no case tells apart: {mistake}");
    }
}
