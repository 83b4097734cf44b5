//! The time that this thread had a processor: what others do on a busy machine is not in it, but for the caches that they take.
use std::sync::OnceLock;
use std::time::Duration;

#[cfg(all(target_os = "linux", target_pointer_width = "64"))]
#[allow(unsafe_code)]
mod thread {
    use std::time::Duration;

    const THREAD_CPUTIME: i32 = 3;

    /// C's `struct timespec`.
    #[repr(C)]
    struct Timespec {
        seconds: i64,
        nanoseconds: i64,
    }

    extern "C" {
        fn clock_gettime(clock: i32, time: *mut Timespec) -> i32;
    }

    pub fn now() -> Duration {
        let mut time = Timespec { seconds: 0, nanoseconds: 0 };
        // SAFETY: C's function writes one `struct timespec`, which this is, and keeps no pointer.
        assert_eq!(unsafe { clock_gettime(THREAD_CPUTIME, &mut time) }, 0, "no clock of the thread's time");
        Duration::new(time.seconds as u64, time.nanoseconds as u32)
    }
}

/// Elsewhere the clock on the wall.
#[cfg(not(all(target_os = "linux", target_pointer_width = "64")))]
mod thread {
    use std::sync::OnceLock;
    use std::time::{Duration, Instant};

    pub fn now() -> Duration {
        static START: OnceLock<Instant> = OnceLock::new();
        START.get_or_init(Instant::now).elapsed()
    }
}

/// How long it took, the looks at the clock not counted.
pub fn took<T>(what: impl FnOnce() -> T) -> (Duration, T) {
    static COST: OnceLock<Duration> = OnceLock::new();
    let cost = *COST.get_or_init(cost);
    let start = thread::now();
    let answer = what();
    ((thread::now() - start).saturating_sub(cost), answer)
}

/// What lies between two looks at the clock, one behind the other: the median of many.
fn cost() -> Duration {
    let look = |_| {
        let start = thread::now();
        thread::now() - start
    };
    let mut costs: Vec<Duration> = (0..1_001).map(look).collect();
    costs.sort();
    costs[costs.len() / 2]
}
