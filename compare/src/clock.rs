//! The time that this thread has been running, so that other work on the machine does not count (Linux).

use std::time::Duration;

#[repr(C)]
struct Time {
    seconds: i64,
    nanoseconds: i64,
}

extern "C" {
    fn clock_gettime(clock: i32, time: *mut Time) -> i32;
}

/// The number of the clock of the calling thread.
const THREAD: i32 = 3;

pub fn spent() -> Duration {
    let mut time = Time { seconds: 0, nanoseconds: 0 };
    let failed = unsafe { clock_gettime(THREAD, &mut time) };
    assert!(failed == 0, "the thread has no clock");
    Duration::new(time.seconds as u64, time.nanoseconds as u32)
}
