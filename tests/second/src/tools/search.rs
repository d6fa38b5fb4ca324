//! Looks for full sheets whose run is long, and writes the best one.
//!
//! Arguments: the seed, the number of changes tried, `moves` or `rounds`, and the file to write. If
//! the file is there, the search starts from its sheet.

use second::codec::door::Codec;
use second::gen::bay::heavy::SHAPES;
use second::gen::bay::light::CHOICES;
use second::gen::bay::slow::{self, Cost};
use second::gen::bay::{days, turning};
use second::gen::day::Day;
use second::planner::algorithm::Planner;
use second::rng::Rng;
use std::{env, fs, process::ExitCode};

/// Days tried for the start.
const STARTS: usize = 100;

fn main() -> ExitCode {
    let arguments: Vec<String> = env::args().skip(1).collect();
    let Some((seed, steps, by, file)) = parse(&arguments) else {
        eprintln!("search: SEED STEPS moves|rounds FILE");
        return ExitCode::from(2);
    };
    let mut rng = Rng::new(seed);
    let mut planner = Planner::new();
    let start = match fs::read(file) {
        Ok(sheet) => day_of(&sheet),
        Err(_) => start(&mut rng, &mut planner, by),
    };
    println!("start: {}", slow::cost(&mut planner, &start, by));
    let best = slow::climb(&mut rng, &mut planner, start, steps, by);
    println!("after {steps} changes: {}", slow::cost(&mut planner, &best, by));
    match fs::write(file, best.draft().bytes()) {
        Ok(()) => ExitCode::SUCCESS,
        Err(error) => {
            eprintln!("search: {file}: {error}");
            ExitCode::FAILURE
        }
    }
}

fn parse(arguments: &[String]) -> Option<(u64, usize, Cost, &str)> {
    let [seed, steps, by, file] = arguments else { return None };
    let by = match by.as_str() {
        "moves" => slow::MOVES,
        "rounds" => slow::ROUNDS,
        _ => return None,
    };
    Some((seed.parse().ok()?, steps.parse().ok()?, by, file))
}

fn day_of(sheet: &[u8]) -> Day {
    let mut codec = Codec::default();
    let sheet = codec.read(sheet).expect("the file has an accepted sheet");
    Day::of(sheet)
}

/// The random day near its turning point with the longest run.
fn start(rng: &mut Rng, planner: &mut Planner, by: Cost) -> Day {
    let mut days = Vec::new();
    for _ in 0..STARTS {
        let mut size = days::full(rng);
        if rng.one_in(2) {
            size.target = rng.range(8, 60);
        }
        let shape = (!rng.one_in(3)).then(|| rng.pick(&SHAPES));
        let choice = rng.pick(&CHOICES);
        let day = days::with(rng, size, shape, choice);
        days.extend(turning::around(planner, &day));
    }
    days.into_iter().max_by_key(|day| slow::cost(planner, day, by)).expect("days were tried")
}
