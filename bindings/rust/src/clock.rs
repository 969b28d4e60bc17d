//! A clock for stamps.

#[cfg(all(target_os = "linux", target_pointer_width = "64"))]
mod system {
    #[repr(C)]
    struct Timespec {
        seconds: i64,
        nanoseconds: i64,
    }

    extern "C" {
        fn clock_gettime(clock: i32, time: *mut Timespec) -> i32;
    }

    const CLOCK_MONOTONIC: i32 = 1;

    #[inline]
    pub(super) fn now() -> u64 {
        let mut time = Timespec { seconds: 0, nanoseconds: 0 };
        // SAFETY: the pointer is valid, and to what the system's call writes. This clock is always there.
        unsafe { clock_gettime(CLOCK_MONOTONIC, &mut time) };
        time.seconds.cast_unsigned().wrapping_mul(1_000_000_000).wrapping_add(time.nanoseconds.cast_unsigned())
    }
}

#[cfg(not(all(target_os = "linux", target_pointer_width = "64")))]
mod system {
    use std::sync::OnceLock;
    use std::time::Instant;

    static BEGUN: OnceLock<Instant> = OnceLock::new();

    pub(super) fn now() -> u64 {
        u64::try_from(BEGUN.get_or_init(Instant::now).elapsed().as_nanos()).unwrap_or(u64::MAX)
    }
}

/// Nanoseconds of the system's clock that never goes back, from a beginning that stays the same while a program runs: as good a stamp as
/// `Instant`, and a number already.
#[inline]
#[must_use]
pub fn monotonic() -> u64 {
    system::now()
}

#[cfg(test)]
mod tests {
    use super::monotonic;
    use std::time::{Duration, Instant};

    #[test]
    fn goes_on_as_an_instant() {
        let (first, begun) = (monotonic(), Instant::now());
        std::thread::sleep(Duration::from_millis(2));
        let elapsed = begun.elapsed();
        let passed = Duration::from_nanos(monotonic() - first);
        assert!(elapsed <= passed && passed < elapsed + Duration::from_secs(10), "{elapsed:?} {passed:?}");
    }
}
