//! The time that this thread has had a processor, which other work on the machine
//! doesn't lengthen.

use std::ffi::{c_int, c_long};
use std::time::Duration;

/// Linux's clock of the calling thread.
const CLOCK_THREAD_CPUTIME_ID: c_int = 3;

/// libc's, on 64-bit Linux.
#[derive(Default)]
#[repr(C)]
struct Timespec {
    seconds: c_long,
    nanoseconds: c_long,
}

extern "C" {
    fn clock_gettime(clock: c_int, time: *mut Timespec) -> c_int;
}

/// What the clock of this thread says.
pub fn now() -> Duration {
    let mut time = Timespec::default();
    // SAFETY: the time is valid for a write during the call, which writes nothing
    // else.
    let failed = unsafe { clock_gettime(CLOCK_THREAD_CPUTIME_ID, &mut time) };
    assert_eq!(failed, 0, "no clock of the thread's CPU time");
    Duration::new(time.seconds as u64, time.nanoseconds as u32)
}
