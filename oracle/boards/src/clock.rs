//! The clocks that calls are timed by.

use std::sync::LazyLock;
use std::time::{Duration, Instant};

/// The time of day's, since it was first asked.
pub fn wall() -> Duration {
    static FIRST: LazyLock<Instant> = LazyLock::new(Instant::now);
    FIRST.elapsed()
}

#[repr(C)]
struct Timespec {
    seconds: i64,
    nanoseconds: i64,
}

unsafe extern "C" {
    fn clock_gettime(clock: i32, time: *mut Timespec) -> i32;
}

/// This thread's own, which stands still while others have the processor. Reading it takes longer.
pub fn own() -> Duration {
    const CLOCK_THREAD_CPUTIME_ID: i32 = 3;
    let mut time = Timespec { seconds: 0, nanoseconds: 0 };
    // SAFETY: the time has a place.
    unsafe { clock_gettime(CLOCK_THREAD_CPUTIME_ID, &mut time) };
    Duration::new(time.seconds as u64, time.nanoseconds as u32)
}

/// The least time between two readings of it with nothing between them, which every measured time has in it. It is measured once.
pub fn cost() -> Duration {
    static COST: LazyLock<Duration> = LazyLock::new(|| {
        let pair = |_| {
            let begun = own();
            own() - begun
        };
        (0..1_000).map(pair).min().unwrap_or_default()
    });
    *COST
}
