//! The library's own record and functions, as `include/skavvilet.h` has them.
//!
//! Every field is a number, so any bytes are a record, and no call crashes on one. What the
//! fields mean stands in the header; `tests/layout.rs` holds both to each other and to the
//! library.

/// How many words a connection's records and queues take.
pub const WORDS: usize = 6912;
/// Most records of a space, and most handles of a queue.
pub const CAPACITY: usize = 256;
/// Most ranges of an acknowledgement.
pub const MOST_RANGES: usize = 64;
/// Says that no packet number was skipped.
pub const NONE_SKIPPED: u64 = u64::MAX;

/// A moment, or none: 0 in `set` says none.
#[repr(C)]
#[derive(Clone, Copy, Debug, Default, PartialEq, Eq)]
pub struct TimeValue {
    pub set: u64,
    pub ns: u64,
}

impl TimeValue {
    pub fn get(self) -> Option<u64> {
        (self.set != 0).then_some(self.ns)
    }
}

/// A packet number, or none: 0 in `set` says none.
#[repr(C)]
#[derive(Clone, Copy, Debug, Default, PartialEq, Eq)]
pub struct NumberValue {
    pub set: u64,
    pub number: u64,
}

impl NumberValue {
    pub fn get(self) -> Option<u64> {
        (self.set != 0).then_some(self.number)
    }
}

/// One packet number space.
#[repr(C)]
#[derive(Clone, Copy, Debug, Default, PartialEq, Eq)]
pub struct SpaceValues {
    pub head: u64,
    pub len: u64,
    pub acked: u64,
    pub lost_ack: u64,
    pub lost_pto: u64,
    pub time_of_last_ack_eliciting_packet: TimeValue,
    pub largest_acked_packet: NumberValue,
    pub loss_time: TimeValue,
    pub loss_probes: u64,
    pub in_flight_count: u64,
    pub largest_sent_packet: NumberValue,
}

/// Round-trip estimates, nanoseconds.
#[repr(C)]
#[derive(Clone, Copy, Debug, Default, PartialEq, Eq)]
pub struct RttValues {
    pub latest_rtt: u64,
    pub min_rtt: u64,
    pub max_rtt: u64,
    pub smoothed_rtt: u64,
    pub rttvar: u64,
    pub has_first_rtt_sample: u64,
    pub max_ack_delay: u64,
}

/// CUBIC's own values.
#[repr(C)]
#[derive(Clone, Copy, Debug, Default, PartialEq)]
pub struct CubicValues {
    pub k: f64,
    pub w_max: f64,
    pub w_est: f64,
    pub alpha_aimd: f64,
    pub cwnd_inc: u64,
}

/// What a rollback restores, and the lost count of then.
#[repr(C)]
#[derive(Clone, Copy, Debug, Default, PartialEq)]
pub struct PriorValues {
    pub congestion_window: u64,
    pub ssthresh: u64,
    pub w_max: f64,
    pub k: f64,
    pub epoch_start: TimeValue,
    pub lost_count: u64,
}

/// The congestion controller.
#[repr(C)]
#[derive(Clone, Copy, Debug, Default, PartialEq)]
pub struct CongestionValues {
    pub congestion_window: u64,
    pub ssthresh: u64,
    pub bytes_acked_sl: u64,
    pub congestion_recovery_start_time: TimeValue,
    pub lost_count: u64,
    pub cubic: CubicValues,
    pub prior: PriorValues,
    pub max_datagram_size: u64,
    pub initial_window_packets: u64,
}

/// All that a connection keeps beside its words.
#[repr(C)]
#[derive(Clone, Copy, Debug, Default, PartialEq)]
pub struct Values {
    pub seal: u64,
    pub initial: SpaceValues,
    pub handshake: SpaceValues,
    pub application: SpaceValues,
    pub clock: u64,
    pub loss_timer: TimeValue,
    pub pto_count: u64,
    pub rtt: RttValues,
    pub pkt_thresh: u64,
    pub time_thresh: u64,
    pub lost_spurious_count: u64,
    pub bytes_in_flight: u64,
    pub max_datagram_size: u64,
    pub outstanding_non_ack_eliciting: u64,
    pub congestion: CongestionValues,
}

/// A connection: its records and queues, and everything else.
#[repr(C)]
#[derive(Clone, Debug, PartialEq)]
pub struct Connection {
    pub words: [u64; WORDS],
    pub values: Values,
}

impl Connection {
    /// A record that was never begun: every event on it is refused with 2.
    pub fn unbegun() -> Box<Connection> {
        Box::new(Connection {
            words: [0; WORDS],
            values: Values::default(),
        })
    }
}

#[repr(C)]
#[derive(Clone, Copy, Debug, Default, PartialEq, Eq)]
pub struct AckAnswer {
    pub refusal: u64,
    pub lost_packets: u64,
    pub lost_bytes: u64,
    pub acked_bytes: u64,
    pub spurious_losses: u64,
}

#[repr(C)]
#[derive(Clone, Copy, Debug, Default, PartialEq, Eq)]
pub struct TimeoutAnswer {
    pub refusal: u64,
    pub lost_packets: u64,
    pub lost_bytes: u64,
}

#[repr(C)]
#[derive(Clone, Copy, Debug, Default, PartialEq, Eq)]
pub struct TakeAnswer {
    pub refusal: u64,
    pub handle: u64,
}

/// What is computed from the values and stands in no field.
#[repr(C)]
#[derive(Clone, Copy, Debug, Default, PartialEq, Eq)]
pub struct Readouts {
    pub cwnd_available: u64,
    pub pto_is_too_large: u64,
    pub pto: u64,
    pub should_elicit_ack: [u64; 3],
    pub has_lost_frames: [u64; 3],
}

// Safe to call: `c` points to a whole record that nothing else uses meanwhile, and `ranges`
// to `range_words` words, or anywhere if that is 0.
extern "C" {
    pub fn skavvilet_begin(
        c: *mut Connection,
        max_datagram_size: u64,
        initial_window_packets: u64,
        initial_rtt: u64,
        max_ack_delay: u64,
    ) -> u64;
    pub fn skavvilet_on_packet_sent(
        c: *mut Connection,
        now: u64,
        space: u64,
        number: u64,
        size: u64,
        flags: u8,
        handle: u64,
        status: u8,
    ) -> u64;
    pub fn skavvilet_on_ack_received(
        c: *mut Connection,
        now: u64,
        space: u64,
        ranges: *const u64,
        range_words: usize,
        delay: u64,
        status: u8,
        limited: u8,
        skipped: u64,
    ) -> AckAnswer;
    pub fn skavvilet_on_loss_detection_timeout(
        c: *mut Connection,
        now: u64,
        status: u8,
    ) -> TimeoutAnswer;
    pub fn skavvilet_on_pkt_num_space_discarded(
        c: *mut Connection,
        now: u64,
        space: u64,
        status: u8,
    ) -> u64;
    pub fn skavvilet_pmtud_update_max_datagram_size(c: *mut Connection, size: u64) -> u64;
    pub fn skavvilet_next_acked_frame(c: *mut Connection, space: u64) -> TakeAnswer;
    pub fn skavvilet_next_lost_frame(c: *mut Connection, space: u64) -> TakeAnswer;
    pub fn skavvilet_ping_sent(c: *mut Connection, space: u64) -> u64;
    pub fn skavvilet_readouts(v: Values) -> Readouts;
}
