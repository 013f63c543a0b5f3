//! Processor time, by which what else runs on the machine does not count. Linux on 64 bits.
use std::ffi::{c_int, c_long};
use std::time::Duration;

const CLOCK_THREAD_CPUTIME_ID: c_int = 3;
const RUSAGE_CHILDREN: c_int = -1;

#[repr(C)]
#[derive(Default)]
struct Timespec {
    seconds: c_long,
    nanoseconds: c_long,
}

#[repr(C)]
#[derive(Default)]
struct Timeval {
    seconds: c_long,
    microseconds: c_long,
}

#[repr(C)]
#[derive(Default)]
struct Rusage {
    user: Timeval,
    system: Timeval,
    others: [c_long; 14],
}

unsafe extern "C" {
    fn clock_gettime(clock: c_int, time: *mut Timespec) -> c_int;
    fn getrusage(who: c_int, usage: *mut Rusage) -> c_int;
}

/// Of this thread.
pub fn of_thread() -> Duration {
    let mut time = Timespec::default();
    // SAFETY: `time` is lent for writing and has the layout of C's.
    let status = unsafe { clock_gettime(CLOCK_THREAD_CPUTIME_ID, &mut time) };
    assert_eq!(status, 0);
    Duration::new(time.seconds as u64, time.nanoseconds as u32)
}

/// Of all programs that this one started and waited for.
pub fn of_children() -> Duration {
    let mut usage = Rusage::default();
    // SAFETY: `usage` is lent for writing and has the layout of C's.
    let status = unsafe { getrusage(RUSAGE_CHILDREN, &mut usage) };
    assert_eq!(status, 0);
    duration(&usage.user) + duration(&usage.system)
}

fn duration(time: &Timeval) -> Duration {
    Duration::new(time.seconds as u64, 1000 * time.microseconds as u32)
}
