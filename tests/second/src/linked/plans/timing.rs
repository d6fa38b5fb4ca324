//! What the programs of times share.

use std::array;
use std::hint::black_box;
use std::time::{Duration, Instant};

pub const WARM_UP: usize = 3;

/// The least of N times, each of them taken `samples` times, in turns.
pub fn least<const N: usize>(
    samples: usize,
    mut time: impl FnMut(usize) -> Duration,
) -> [Duration; N] {
    let mut least = [Duration::MAX; N];
    for sample in 0..WARM_UP + samples {
        let times: [Duration; N] = array::from_fn(&mut time);
        if sample >= WARM_UP {
            least = array::from_fn(|index| least[index].min(times[index]));
        }
    }
    least
}

pub fn time<T>(call: impl FnOnce() -> T) -> Duration {
    let start = Instant::now();
    black_box(call());
    start.elapsed()
}

pub fn microseconds(time: Duration) -> f64 {
    time.as_nanos() as f64 / 1000.0
}
