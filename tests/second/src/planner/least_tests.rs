//! The least weight of a placement against every placement, as numbers.

use super::least::{least_placement, least_weight};
use super::set::Set;
use crate::codec::door::Codec;
use crate::gen::bay::{days, placements};
use crate::gen::day::Day;
use crate::judge::{lightest_placement, weight_of_lightest};
use crate::rng::Rng;

/// Compares a day's least weights in some sets; whether there is a placement.
fn compare(codec: &mut Codec, day: &Day, sets: impl Iterator<Item = Set>) -> bool {
    let bytes = day.draft().bytes();
    let sheet = codec.read(&bytes).expect("accepted");
    for set in sets {
        assert_eq!(least_placement(sheet, set), lightest_placement(sheet, set), "{day:?} {set:?}");
        assert_eq!(least_weight(sheet, set), weight_of_lightest(sheet, set), "{day:?} {set:?}");
    }
    least_placement(sheet, Set::EMPTY).is_some()
}

#[test]
fn every_set_of_small_days() {
    let (mut rng, mut codec) = (Rng::new(5), Codec::default());
    let mut with_placement = 0;
    for _ in 0..4000 {
        let size = placements::small(&mut rng);
        let day = placements::any(&mut rng, size);
        let shift = 64 - day.head.benches;
        let sets = (0..1 << day.head.benches).map(|set: u64| Set(set << shift));
        with_placement += u64::from(compare(&mut codec, &day, sets));
    }
    assert!((1000..3500).contains(&with_placement), "{with_placement}");
}

#[test]
fn sets_of_full_days() {
    let (mut rng, mut codec) = (Rng::new(6), Codec::default());
    let mut with_placement = 0;
    for _ in 0..150 {
        let size = days::full(&mut rng);
        let day = placements::any(&mut rng, size);
        let sets: Vec<Set> = (0..10).map(|_| placements::any_set(&mut rng, 64)).collect();
        with_placement += u64::from(compare(&mut codec, &day, sets.into_iter()));
    }
    assert!((20..140).contains(&with_placement), "{with_placement}");
}

/// Where a set is brought to k × T, one more or one less, all three are met.
#[test]
fn sets_are_brought_to_the_limit() {
    let (mut rng, mut codec) = (Rng::new(7), Codec::default());
    let mut met = [0; 3];
    for _ in 0..3000 {
        let (day, set) = placements::levelled(&mut rng);
        let bytes = day.draft().bytes();
        let sheet = codec.read(&bytes).expect("accepted");
        let limit = set.len() as u64 * day.head.target;
        if let Some(weight) = least_weight(sheet, set) {
            if (limit.max(1) - 1..=limit + 1).contains(&weight) {
                met[(weight + 1 - limit) as usize] += 1;
            }
        }
    }
    assert!(met.iter().all(|&times| times >= 300), "{met:?}");
}
