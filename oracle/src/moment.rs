//! 01's moments and spans, whole nanoseconds, as the Rust's `Instant` and `Duration`.

use std::sync::OnceLock;
use std::time::{Duration, Instant};

/// Times go up to 2^53 - 1.
pub const LARGEST_TIME: u64 = (1 << 53) - 1;

/// Stands for moment 0. Far from `Instant`'s own zero, so that `now - rtt` with a
/// span larger than `now` stays a moment before 0, as 01 wants it to compare.
fn zero() -> Instant {
    static ZERO: OnceLock<Instant> = OnceLock::new();
    *ZERO.get_or_init(|| Instant::now() + Duration::from_nanos(4 * LARGEST_TIME))
}

pub fn instant(moment: u64) -> Instant {
    zero() + Duration::from_nanos(moment)
}

/// Panics on an instant before moment 0: the recovery holds none.
pub fn moment(instant: Instant) -> u64 {
    let since = instant.checked_duration_since(zero());
    span(since.expect("the recovery holds no moment before 0"))
}

pub fn span(duration: Duration) -> u64 {
    u64::try_from(duration.as_nanos()).expect("a span of the recovery fits 64 bits")
}
