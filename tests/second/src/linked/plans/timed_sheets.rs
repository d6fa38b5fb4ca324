//! The sheets whose planning is timed, all full: 64 benches and 512 jobs. The slow ones were found
//! by `search`; the others are random with a fixed seed, just below their turning points and at them.

use second::corpus::SLOW;
use second::gen::bay::heavy::Shape;
use second::gen::bay::light::Choice;
use second::gen::bay::{days, turning};
use second::gen::day::Day;
use second::planner::algorithm::Planner;
use second::rng::Rng;

const SEED: u64 = 1;

const RANDOM: [(&str, Option<Shape>, Choice); 6] = [
    ("light jobs everywhere", None, Choice::Everywhere),
    ("light jobs to the next", None, Choice::Next),
    ("chain, mixed choices", Some(Shape::Chain), Choice::Mixed),
    ("cycle, few choices", Some(Shape::Cycle), Choice::Few),
    ("trees, mixed choices", Some(Shape::Forest), Choice::Mixed),
    ("pieces, next", Some(Shape::Pieces), Choice::Next),
];

/// Each sheet with its name.
pub fn all() -> Vec<(&'static str, Vec<u8>)> {
    let mut sheets: Vec<_> = SLOW.map(|(name, sheet)| (name, sheet.to_vec())).into();
    let mut rng = Rng::new(SEED);
    for (name, shape, choice) in RANDOM {
        sheets.extend(turning_sheets(&mut rng, shape, choice).map(|sheet| (name, sheet)));
    }
    sheets
}

/// The sheet just below the turning point and the one at it.
fn turning_sheets(rng: &mut Rng, shape: Option<Shape>, choice: Choice) -> [Vec<u8>; 2] {
    let size = days::full(rng);
    let day = days::with(rng, size, shape, choice);
    let target = turning::turning_target(&mut Planner::new(), &day);
    [target.saturating_sub(1), target].map(|target| {
        let mut day: Day = day.clone();
        day.head.target = target;
        day.draft().bytes()
    })
}
