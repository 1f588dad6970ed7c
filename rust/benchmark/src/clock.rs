//! The processor time of this thread: work of others beside it doesn't count.

/// Linux on 64 bits, as the peak of memory asks for too.
#[repr(C)]
struct Time {
    seconds: i64,
    nanoseconds: i64,
}

extern "C" {
    fn clock_gettime(clock: i32, time: *mut Time) -> i32;
}

/// The number that Linux gives the clock of a thread.
const THREAD: i32 = 3;

/// Nanoseconds so far.
pub fn now() -> u128 {
    let mut time = Time {
        seconds: 0,
        nanoseconds: 0,
    };
    // SAFETY: the time is lent for the call alone, and has the form that the system writes.
    let failed = unsafe { clock_gettime(THREAD, &raw mut time) };
    assert_eq!(failed, 0, "no clock of a thread");
    time.seconds as u128 * 1_000_000_000 + time.nanoseconds as u128
}
