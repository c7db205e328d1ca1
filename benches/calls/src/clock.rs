//! The processor time of this thread, in nanoseconds: what other programs take of the machine does not count.

#[repr(C)]
struct Timespec {
    seconds: i64,
    nanoseconds: i64,
}

extern "C" {
    fn clock_gettime(clock: i32, time: *mut Timespec) -> i32;
}

/// Linux's CLOCK_THREAD_CPUTIME_ID.
const THREAD: i32 = 3;

pub fn now() -> f64 {
    let mut t = Timespec { seconds: 0, nanoseconds: 0 };
    let status = unsafe { clock_gettime(THREAD, &mut t) };
    assert_eq!(status, 0, "clock_gettime");
    t.seconds as f64 * 1e9 + t.nanoseconds as f64
}
