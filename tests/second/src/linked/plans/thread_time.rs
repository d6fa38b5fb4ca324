//! The processor time of this thread, by the clock of Linux: it stands while another program has
//! the processor.

use std::hint::black_box;
use std::time::Duration;

const CLOCK_THREAD_CPUTIME_ID: i32 = 3;

#[repr(C)]
struct Timespec {
    seconds: i64,
    nanoseconds: i64,
}

extern "C" {
    fn clock_gettime(clock: i32, time: *mut Timespec) -> i32;
}

fn now() -> Duration {
    let mut time = Timespec { seconds: 0, nanoseconds: 0 };
    // SAFETY: the pointer is to a whole `Timespec` that is lent for the call.
    let status = unsafe { clock_gettime(CLOCK_THREAD_CPUTIME_ID, &mut time) };
    assert_eq!(status, 0, "no clock of processor time");
    Duration::new(time.seconds as u64, time.nanoseconds as u32)
}

/// The time of a call while this thread has the processor.
pub fn time<T>(call: impl FnOnce() -> T) -> Duration {
    let start = now();
    black_box(call());
    now() - start
}
