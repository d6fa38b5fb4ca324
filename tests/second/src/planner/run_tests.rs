//! The second planner against the run word for word.

use super::example_tests::plan_day;
use super::literal;
use crate::corpus;
use crate::gen::bay::days::{self, Size};
use crate::gen::bay::turning;
use crate::gen::day::Day;
use crate::planner::algorithm::Planner;
use crate::rng::Rng;

fn agrees(day: &Day) {
    assert_eq!(plan_day(day), literal::answer(day), "{day:?}");
}

fn agree(seed: u64, count: usize, size: fn(&mut Rng) -> Size) {
    let mut rng = Rng::new(seed);
    let mut planner = Planner::new();
    for _ in 0..count {
        let size = size(&mut rng);
        let day = days::any(&mut rng, size);
        agrees(&day);
        for day in turning::around(&mut planner, &day) {
            agrees(&day);
        }
    }
}

/// All 64 benches, with not too many jobs.
fn wide(rng: &mut Rng) -> Size {
    Size { benches: 64, jobs: 100, target: rng.range(10, 100) }
}

#[test]
fn the_corpus() {
    for case in corpus::cases(corpus::TEXT) {
        if !case.answer.starts_with("fault") {
            agrees(&case.day);
        }
    }
}

#[test]
fn tiny_days() {
    agree(11, 1000, days::tiny);
}

#[test]
fn middle_days() {
    agree(12, 15, days::middle);
}

#[test]
#[ignore = "takes a minute in release"]
fn many_days() {
    agree(13, 20_000, days::tiny);
    agree(14, 1000, days::middle);
    agree(15, 20, wide);
}
