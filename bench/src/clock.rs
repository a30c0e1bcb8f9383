//! The time that this thread has had the processor. The time of day would also count what other programs take.

use std::time::Duration;

#[repr(C)]
struct Time {
    seconds: i64,
    nanoseconds: i64,
}

unsafe extern "C" {
    fn clock_gettime(clock: i32, time: *mut Time) -> i32;
}

/// Linux's number of the clock.
const CLOCK_THREAD_CPUTIME_ID: i32 = 3;

pub fn cpu_time() -> Duration {
    let mut time = Time {
        seconds: 0,
        nanoseconds: 0,
    };
    // SAFETY: `Time` has the layout of the C library's timespec on 64-bit Linux and lives for the call.
    let status = unsafe { clock_gettime(CLOCK_THREAD_CPUTIME_ID, &mut time) };
    assert_eq!(status, 0, "the thread's clock");
    Duration::new(time.seconds as u64, time.nanoseconds as u32)
}
