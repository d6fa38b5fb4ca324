//! Pairs of benches for heavy jobs.

use crate::rng::Rng;

#[derive(Clone, Copy, Debug, PartialEq, Eq)]
pub enum Shape {
    Alone,
    Pairs,
    Chain,
    Cycle,
    /// Chains and cycles beside one another.
    Pieces,
    Forest,
    /// A cycle with trees that hang off it.
    Tailed,
    /// Two jobs on the same pair, with more that hang off, or with pairs beside.
    Parallel,
    /// As many jobs as benches or a few more, on any pairs.
    Crowded,
}

pub const SHAPES: [Shape; 9] = [
    Shape::Alone,
    Shape::Pairs,
    Shape::Chain,
    Shape::Cycle,
    Shape::Pieces,
    Shape::Forest,
    Shape::Tailed,
    Shape::Parallel,
    Shape::Crowded,
];

type Pair = [u64; 2];

/// The pairs of a shape on the benches, of which there are two or more.
pub fn pairs(rng: &mut Rng, shape: Shape, benches: u64) -> Vec<Pair> {
    let mut order: Vec<u64> = (0..benches).collect();
    if rng.one_in(2) {
        rng.shuffle(&mut order);
    }
    match shape {
        Shape::Alone => vec![[order[0], order[1]]],
        Shape::Pairs => order.chunks_exact(2).map(|two| [two[0], two[1]]).collect(),
        Shape::Chain => chain(part(rng, &order)),
        Shape::Cycle => cycle(part(rng, &order)),
        Shape::Pieces => pieces(rng, &order),
        Shape::Forest => hanging(rng, &order, 1),
        Shape::Tailed => {
            let round = rng.range(2, order.len() as u64) as usize;
            [cycle(&order[..round]), hanging(rng, &order, round)].concat()
        }
        Shape::Parallel => parallel(rng, &order),
        Shape::Crowded => {
            let count = benches + rng.range(0, 2);
            (0..count).map(|_| any_pair(rng, &order)).collect()
        }
    }
}

/// All of the benches, or some first ones, two at least.
fn part<'a>(rng: &mut Rng, order: &'a [u64]) -> &'a [u64] {
    if rng.one_in(2) {
        order
    } else {
        &order[..rng.range(2, order.len() as u64) as usize]
    }
}

fn chain(order: &[u64]) -> Vec<Pair> {
    order.windows(2).map(|two| [two[0], two[1]]).collect()
}

fn cycle(order: &[u64]) -> Vec<Pair> {
    let mut pairs = chain(order);
    pairs.push([order[order.len() - 1], order[0]]);
    pairs
}

fn pieces(rng: &mut Rng, order: &[u64]) -> Vec<Pair> {
    let mut pairs = Vec::new();
    let mut rest = order;
    while rest.len() >= 2 {
        let (piece, more) = rest.split_at(rng.range(2, rest.len().min(9) as u64) as usize);
        pairs.extend(if rng.one_in(3) { cycle(piece) } else { chain(piece) });
        rest = more;
    }
    pairs
}

/// Most of the benches from `first` on, each joined to an earlier one.
fn hanging(rng: &mut Rng, order: &[u64], first: usize) -> Vec<Pair> {
    let mut pairs = Vec::new();
    for bench in first..order.len() {
        if !rng.one_in(5) {
            pairs.push([order[rng.below(bench)], order[bench]]);
        }
    }
    pairs
}

fn parallel(rng: &mut Rng, order: &[u64]) -> Vec<Pair> {
    if rng.one_in(2) {
        return [cycle(&order[..2]), hanging(rng, order, 2)].concat();
    }
    order.chunks_exact(2).flat_map(cycle).collect()
}

fn any_pair(rng: &mut Rng, order: &[u64]) -> Pair {
    let one = rng.below(order.len());
    let two = (one + 1 + rng.below(order.len() - 1)) % order.len();
    [order[one], order[two]]
}
