//! What the program `explored` prints for a sheet, from the second planner's last exploration. The
//! comment at the head of crates/explored/src/main.rt says what each line means.

use second::codec::door::Codec;
use second::codec::sheet::{Head, Sheet};
use second::planner::bay::{is_heavy, Bay, Pebble};
use second::planner::explore::Exploration;
use second::planner::least::least_placement;
use second::planner::push::first_move;
use second::planner::rocks::Rock;
use second::planner::set::Set;
use std::collections::BTreeMap;

pub fn lines(codec: &mut Codec, bytes: &[u8]) -> String {
    let sheet = match codec.read(bytes) {
        Err(fault) => return format!("fault {} {}\n", fault.number, fault.place),
        Ok(sheet) => sheet,
    };
    let Head { benches, p, q, target } = sheet.head();
    if let Some(job) = sheet.jobs().iter().position(|job| job.minutes > target) {
        return format!("long {job}\n");
    }
    let head = format!("sheet {benches} {p} {q} {target} {}\n", sheet.jobs().len());
    head + &match Bay::of(sheet) {
        Err(crowded) => crowded_lines(sheet, crowded),
        Ok(bay) => run_lines(sheet, bay),
    }
}

fn spaced(benches: Set) -> String {
    benches.map(|bench| format!(" {bench}")).collect()
}

fn ends(allowed: u64) -> (u32, u32) {
    (allowed.leading_zeros(), 63 - allowed.trailing_zeros())
}

/// The heavy jobs with both their benches in the component.
fn crowded_lines(sheet: &Sheet, crowded: Set) -> String {
    let mut text = String::new();
    for (number, job) in sheet.jobs().iter().enumerate() {
        let two = job.allowed.count_ones() == 2 && is_heavy(sheet.head(), job);
        if two && (Set(job.allowed) - crowded).is_empty() {
            let (low, high) = ends(job.allowed);
            text += &format!("heavy {number} {} {low} {high} -\n", job.minutes);
        }
    }
    text + &format!("none 0{}\n", spaced(crowded))
}

/// The run to its end, and what its last exploration sees.
fn run_lines(sheet: &Sheet, mut bay: Bay) -> String {
    let mut moves = 0;
    loop {
        let exploration = Exploration::explore(&bay);
        let Some(push) = first_move(&exploration) else {
            return view(sheet, &exploration, moves);
        };
        bay.shift(push.pebble, push.to);
        moves += 1;
    }
}

fn view(sheet: &Sheet, exploration: &Exploration, moves: u64) -> String {
    let mut text = bench_lines(sheet, exploration);
    text += &heavy_lines(sheet, exploration);
    text += &other_lines(sheet, exploration.orientation.bay);
    let activated = exploration.activated;
    if activated.is_empty() {
        return text + &format!("plan {moves}\n");
    }
    let least = least_placement(sheet, activated);
    text += &format!("least {}\n", shown(least));
    text + &format!("none {moves}{}\n", spaced(activated))
}

fn shown(number: Option<u64>) -> String {
    number.map_or("-".to_string(), |number| number.to_string())
}

fn bench_lines(sheet: &Sheet, exploration: &Exploration) -> String {
    let bay = exploration.orientation.bay;
    let minutes = |weight: u64| weight / bay.limits.scale;
    let line = |bench: usize| {
        format!(
            "bench {bench} {} {} {} {} {}\n",
            sheet.booked()[bench],
            minutes(bay.own[bench]),
            minutes(exploration.orientation.load[bench]),
            shown(joined(exploration, bench)),
            shown(level(exploration, bench))
        )
    };
    (0..bay.benches).map(line).collect()
}

fn level(exploration: &Exploration, bench: usize) -> Option<u64> {
    let level = exploration.levels().iter().position(|level| level.has(bench));
    level.map(|level| level as u64)
}

/// The round in which a bench joined the conflict set. A bench joins as one of the round's level or
/// since a father of it did, and no rock at a bench of the conflict set is neutral after the round
/// or turned later: so the conflict set after a round is what the levels so far and the children at
/// the end of the exploration give.
fn joined(exploration: &Exploration, bench: usize) -> Option<u64> {
    let mut conflict = Set::EMPTY;
    let levels = exploration.levels().iter().enumerate();
    for (round, &level) in levels {
        let mut fresh = level - conflict;
        while let Some(next) = fresh.next() {
            conflict.insert(next);
            fresh |= exploration.orientation.children[next] - conflict;
        }
        if conflict.has(bench) {
            return Some(round as u64);
        }
    }
    assert!(!exploration.conflict.has(bench), "bench {bench} joined in no round");
    None
}

fn heavy_lines(sheet: &Sheet, exploration: &Exploration) -> String {
    let orientation = &exploration.orientation;
    let to: BTreeMap<usize, usize> =
        orientation.directed().map(|(rock, bench)| (rock.job, bench)).collect();
    let rocks = orientation.bay.rocks.left().map(|rock| orientation.bay.rocks.get(rock));
    let line = |&Rock { job, ends: [low, high], .. }: &Rock| {
        let bench = to.get(&job).map(|&bench| bench as u64);
        let minutes = sheet.jobs()[job].minutes;
        format!("heavy {job} {minutes} {low} {high} {}\n", shown(bench))
    };
    rocks.map(line).collect()
}

/// The jobs that are no rocks, or were peeled.
fn other_lines(sheet: &Sheet, bay: &Bay) -> String {
    let left: Vec<usize> = bay.rocks.left().map(|rock| bay.rocks.get(rock).job).collect();
    let given: BTreeMap<usize, usize> =
        bay.rocks.given().map(|(rock, bench)| (rock.job, bench)).collect();
    let pebbles: BTreeMap<usize, &Pebble> =
        bay.pebbles().iter().map(|pebble| (pebble.job, pebble)).collect();
    let mut text = String::new();
    for (number, job) in sheet.jobs().iter().enumerate().filter(|(job, _)| !left.contains(job)) {
        let (kind, place) = match pebbles.get(&number) {
            Some(pebble) => ("light", pebble.place),
            None => {
                let lowest = job.allowed.leading_zeros() as usize;
                ("fixed", given.get(&number).copied().unwrap_or(lowest))
            }
        };
        let allowed = spaced(Set(job.allowed));
        text += &format!("{kind} {number} {} {place}{allowed}\n", job.minutes);
    }
    text
}
