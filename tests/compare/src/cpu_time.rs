//! The time that this thread has run, which leaves out what other programs take
//! from it.

use std::time::Duration;

/// A time as the system gives it.
#[repr(C)]
struct Timespec {
    seconds: i64,
    nanoseconds: i64,
}

/// The clock of the calling thread on Linux.
const THREAD_CLOCK: i32 = 3;

unsafe extern "C" {
    fn clock_gettime(clock: i32, time: &mut Timespec) -> i32;
}

/// The time that the calling thread has run so far.
pub fn cpu_time() -> Duration {
    let mut time = Timespec {
        seconds: 0,
        nanoseconds: 0,
    };
    // SAFETY: the system writes one time there and nothing else.
    let status = unsafe { clock_gettime(THREAD_CLOCK, &mut time) };
    assert_eq!(status, 0, "the clock of a thread");
    Duration::new(time.seconds as u64, time.nanoseconds as u32)
}

/// What a way finds, and the time that it runs, in nanoseconds.
pub fn timed<T>(way: impl FnOnce() -> T) -> (T, f64) {
    let start = cpu_time();
    let found = way();
    (found, (cpu_time() - start).as_nanos() as f64)
}

/// What a way finds and takes the second time of two, so that it finds the caches as it
/// left them itself and not as another way did.
pub fn warm<T>(mut way: impl FnMut() -> T) -> (T, f64) {
    way();
    timed(way)
}
