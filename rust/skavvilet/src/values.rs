//! What goes into an event and comes out of it.

use std::time::{Duration, Instant};

/// Whole nanoseconds since a moment 0 of the host's choice, up to 2^53 - 1.
#[derive(Clone, Copy, Debug, PartialEq, Eq, PartialOrd, Ord, Hash)]
pub struct Moment(pub u64);

impl Moment {
    /// The moment of an instant, where `origin` is moment 0; an instant before it is moment 0.
    ///
    /// ```
    /// use skavvilet::Moment;
    /// use std::time::{Duration, Instant};
    ///
    /// let origin = Instant::now();
    /// let later = origin + Duration::from_millis(3);
    /// assert_eq!(Moment::since(origin, later), Moment(3_000_000));
    /// ```
    pub fn since(origin: Instant, instant: Instant) -> Moment {
        Moment(nanos(instant.saturating_duration_since(origin)))
    }

    /// As a span since moment 0.
    pub fn as_duration(self) -> Duration {
        Duration::from_nanos(self.0)
    }
}

/// A span past 64 bits is past every limit of the rules as well.
pub(crate) fn nanos(span: Duration) -> u64 {
    u64::try_from(span.as_nanos()).unwrap_or(u64::MAX)
}

/// A packet number space.
#[derive(Clone, Copy, Debug, PartialEq, Eq, PartialOrd, Ord, Hash)]
#[repr(u8)]
pub enum Epoch {
    Initial = 0,
    Handshake = 1,
    Application = 2,
}

/// What is set at the start. A setting outside its range is refused.
#[derive(Clone, Copy, Debug, PartialEq, Eq)]
pub struct RecoveryConfig {
    /// Bytes, 1,200 to 65,527.
    pub max_send_udp_payload_size: u64,
    /// 2 to 100.
    pub initial_congestion_window_packets: u64,
    /// 1 ms to 10 s.
    pub initial_rtt: Duration,
    /// 0 to 16,383 ms.
    pub max_ack_delay: Duration,
}

impl Default for RecoveryConfig {
    /// 1,200 bytes, 10 packets, 333 ms, 25 ms.
    fn default() -> Self {
        RecoveryConfig {
            max_send_udp_payload_size: 1_200,
            initial_congestion_window_packets: 10,
            initial_rtt: Duration::from_millis(333),
            max_ack_delay: Duration::from_millis(25),
        }
    }
}

/// What the host knows of the handshake at an event.
#[derive(Clone, Copy, Debug, Default, PartialEq, Eq)]
pub struct HandshakeStatus {
    pub has_handshake_keys: bool,
    pub peer_verified_address: bool,
    pub completed: bool,
}

impl HandshakeStatus {
    /// All three.
    pub fn completed() -> Self {
        HandshakeStatus {
            has_handshake_keys: true,
            peer_verified_address: true,
            completed: true,
        }
    }

    pub(crate) fn bits(self) -> u8 {
        u8::from(self.has_handshake_keys)
            | u8::from(self.peer_verified_address) << 1
            | u8::from(self.completed) << 2
    }
}

/// A packet as it is sent.
#[derive(Clone, Copy, Debug, PartialEq, Eq)]
pub struct Sent {
    /// Below 2^62, and above the last one of its space.
    pub pkt_num: u64,
    /// What the host calls the packet's frames; 0 for none.
    pub frames: u64,
    /// Bytes, 1 to 65,527.
    pub size: u64,
    pub ack_eliciting: bool,
    pub in_flight: bool,
    pub has_data: bool,
    /// Must be in flight.
    pub is_pmtud_probe: bool,
}

impl Sent {
    /// A packet with data: in flight and ack-eliciting.
    pub fn data(pkt_num: u64, size: u64, frames: u64) -> Sent {
        Sent {
            pkt_num,
            frames,
            size,
            ack_eliciting: true,
            in_flight: true,
            has_data: true,
            is_pmtud_probe: false,
        }
    }

    pub(crate) fn bits(&self) -> u8 {
        u8::from(self.ack_eliciting)
            | u8::from(self.in_flight) << 1
            | u8::from(self.has_data) << 2
            | u8::from(self.is_pmtud_probe) << 3
    }
}

/// What an accepted acknowledgement did. All 0 if it acknowledged nothing new.
#[derive(Clone, Copy, Debug, Default, PartialEq, Eq)]
pub struct OnAckReceivedOutcome {
    pub lost_packets: u64,
    pub lost_bytes: u64,
    pub acked_bytes: u64,
    pub spurious_losses: u64,
}

/// What an accepted timeout did.
#[derive(Clone, Copy, Debug, Default, PartialEq, Eq)]
pub struct OnLossDetectionTimeoutOutcome {
    pub lost_packets: u64,
    pub lost_bytes: u64,
}
