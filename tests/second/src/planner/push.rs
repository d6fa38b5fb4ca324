//! The PUSH operation, Definition 4.4.3.

use super::explore::Exploration;
use super::set::Set;

/// A pebble, counted among the pebbles, and the bench it is pushed to.
#[derive(Clone, Copy, Debug, PartialEq, Eq)]
pub struct Move {
    pub pebble: usize,
    pub to: usize,
}

/// "The move taken is the first that the definition allows, by job number, then by bench number."
pub fn first_move(exploration: &Exploration) -> Option<Move> {
    let receivers = receivers(exploration);
    let pebbles = exploration.orientation.bay.pebbles().iter().enumerate();
    // 1. "The pebble is at u* and it can be assigned to v*."
    let mut moves = pebbles.filter_map(|(pebble, job)| {
        let to = (job.allowed & receivers[job.place]).lowest()?;
        Some(Move { pebble, to })
    });
    moves.next()
}

/// For each bench the benches that a pebble on it may be pushed to if it can be assigned there.
fn receivers(exploration: &Exploration) -> [Set; 64] {
    let mut receivers = [Set::EMPTY; 64];
    // 2. "LEVEL(v*) = LEVEL(u*) + 1."
    for pair in exploration.levels().windows(2) {
        let ready = pair[1].filter(|&bench| is_ready(exploration, bench));
        let ready = ready.fold(Set::EMPTY, |all, bench| all | Set::one(bench));
        for bench in pair[0] {
            receivers[bench] = ready;
        }
    }
    receivers
}

/// 3. "dl(v*) + pl(v*) + rl(v*) ≤ (5/3 − 2/3 · β)t."
/// 4. "D(v*) = ∅, or dl(v*) + pl(v*) + w_v*u ≤ (5/3 − 2/3 · β)t for all u ∈ F(v)", read as F(v*).
fn is_ready(exploration: &Exploration, bench: usize) -> bool {
    let bay = exploration.orientation.bay;
    let own = bay.own[bench];
    let mut fathers = exploration.fathers(bench);
    exploration.orientation.load[bench] <= bay.limits.push
        && (exploration.is_leaf(bench) || fathers.all(|weight| own + weight <= bay.limits.push))
}
