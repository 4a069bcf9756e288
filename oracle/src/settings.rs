//! What is set at the start (01 'The stage numbers').

use crate::front::{Refusal, DATAGRAM_SIZES};

pub const NANOS_PER_MILLI: u64 = 1_000_000;

#[derive(Clone, Copy, Debug, PartialEq, Eq)]
pub struct Settings {
    /// Bytes.
    pub datagram_size: u64,
    /// The initial window, in packets.
    pub initial_packets: u64,
    /// Nanoseconds.
    pub initial_rtt: u64,
    /// Nanoseconds.
    pub max_ack_delay: u64,
}

impl Default for Settings {
    /// The values of 01's cases and replay.
    fn default() -> Self {
        Settings {
            datagram_size: 1_200,
            initial_packets: 10,
            initial_rtt: 333 * NANOS_PER_MILLI,
            max_ack_delay: 25 * NANOS_PER_MILLI,
        }
    }
}

impl Settings {
    /// Refusal 2 for a setting outside its range.
    pub fn judged(self) -> Result<Settings, Refusal> {
        let fine = DATAGRAM_SIZES.contains(&self.datagram_size)
            && (2..=100).contains(&self.initial_packets)
            && (NANOS_PER_MILLI..=10_000 * NANOS_PER_MILLI).contains(&self.initial_rtt)
            && self.max_ack_delay <= 16_383 * NANOS_PER_MILLI;
        if fine {
            Ok(self)
        } else {
            Err(Refusal::Domain)
        }
    }
}

#[cfg(test)]
mod tests {
    use super::*;

    #[test]
    fn settings_are_refused_just_outside_their_ranges() {
        let with = |datagram_size, initial_packets, initial_rtt, max_ack_delay| Settings {
            datagram_size,
            initial_packets,
            initial_rtt,
            max_ack_delay,
        };
        let fine = [
            with(1_200, 2, 1_000_000, 0),
            with(65_527, 100, 10_000_000_000, 16_383_000_000),
        ];
        assert!(fine.iter().all(|s| s.judged().is_ok()));
        let refused = [
            with(1_199, 10, 1_000_000, 0),
            with(65_528, 10, 1_000_000, 0),
            with(1_200, 1, 1_000_000, 0),
            with(1_200, 101, 1_000_000, 0),
            with(1_200, 10, 999_999, 0),
            with(1_200, 10, 10_000_000_001, 0),
            with(1_200, 10, 1_000_000, 16_383_000_001),
        ];
        assert!(refused.iter().all(|s| s.judged() == Err(Refusal::Domain)));
    }
}
