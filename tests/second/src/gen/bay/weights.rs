//! Minutes at and between the limits of a head.

use crate::codec::sheet::Head;
use crate::gen::day::MOST_MINUTES;
use crate::rng::Rng;

/// The most minutes of a light job.
pub fn most_light(head: Head) -> u64 {
    head.p * head.target / head.q
}

/// Minutes of a heavy job, often at an edge: just heavy, T, or about Rule 2's limit. The target is
/// at least 1.
pub fn heavy(rng: &mut Rng, head: Head) -> u64 {
    let Head { p, q, target, .. } = head;
    let least = most_light(head) + 1;
    let rule_2 = (2 * q + p) * target / (3 * q);
    let minutes = match rng.below(8) {
        0 => least,
        1 => target,
        2 => rule_2,
        3 => rule_2 + 1,
        4 => rng.range(least, rule_2.max(least)),
        _ => rng.range(least, target),
    };
    minutes.clamp(least, target).min(MOST_MINUTES)
}

/// Minutes of a light job of about `middle`, and at most p/q × T where that is 1 or more.
pub fn light(rng: &mut Rng, head: Head, middle: u64) -> u64 {
    let most = most_light(head).clamp(1, MOST_MINUTES);
    match rng.below(8) {
        0 => most,
        1 => rng.range(1, most),
        _ => rng.range(1, 2 * middle.max(1)).min(most),
    }
}

/// Minutes of a job with one bench: any up to T.
pub fn dedicated(rng: &mut Rng, head: Head) -> u64 {
    let most = head.target.clamp(1, MOST_MINUTES);
    match rng.below(4) {
        0 => rng.range(1, most),
        1 => most,
        _ => rng.range(1, most.div_ceil(3)),
    }
}
