//! The processor time of this thread, so that what else the machine does is not counted.

use std::ffi::{c_int, c_long};
use std::hint::black_box;
use std::time::Duration;

#[repr(C)]
struct Timespec {
    seconds: i64,
    nanoseconds: c_long,
}

/// CLOCK_THREAD_CPUTIME_ID on Linux.
const THREAD_TIME: c_int = 3;

extern "C" {
    fn clock_gettime(clock: c_int, time: *mut Timespec) -> c_int;
}

fn now() -> Duration {
    let mut time = Timespec {
        seconds: 0,
        nanoseconds: 0,
    };
    let status = unsafe { clock_gettime(THREAD_TIME, &mut time) };
    assert_eq!(status, 0, "there is no clock of the thread's time");
    Duration::new(time.seconds as u64, time.nanoseconds as u32)
}

pub fn time<T>(call: impl FnOnce() -> T) -> Duration {
    let begun = now();
    black_box(call());
    now() - begun
}
