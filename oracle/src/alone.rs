//! The real recovery with nothing in front of it, for timing: every argument is made beforehand
//! in the Rust's own types, and no refusal is judged. For traces inside 01's domain only.

use std::time::Instant;

use quiche::packet::Epoch;
use quiche::ranges::RangeSet;
use quiche::recovery::congestion::recovery::LegacyRecovery;
use quiche::recovery::{HandshakeStatus, RecoveryOps, Sent};

use crate::connection::{epoch, range_set, recovery, sent_packet};
use crate::event::{Event, NONE_SKIPPED};
use crate::moment::instant;
use crate::settings::Settings;
use crate::trace::HeldRanges;

/// A call of the recovery, ready to be made.
pub enum Call {
    Sent(Sent, Epoch, HandshakeStatus, Instant),
    Ack(AckCall),
    Timeout(HandshakeStatus, Instant),
    Discard(Epoch, HandshakeStatus, Instant),
    Size(usize),
    TakeAcked(Epoch),
    TakeLost(Epoch),
    Ping(Epoch),
}

pub struct AckCall {
    words: Vec<u64>,
    ranges: RangeSet,
    delay_micros: u64,
    epoch: Epoch,
    status: HandshakeStatus,
    now: Instant,
    skipped: Option<u64>,
    limited: bool,
}

/// Ranges go into the calls of their acks.
pub fn calls(events: &[Event]) -> Vec<Call> {
    let mut held = HeldRanges::default();
    let made = events.iter().filter_map(|event| call(event, &mut held));
    made.collect()
}

fn call(event: &Event, held: &mut HeldRanges) -> Option<Call> {
    Some(match event {
        Event::Range { start, end } => {
            held.hold(*start, *end);
            return None;
        }
        Event::Sent {
            now,
            space,
            packet,
            status,
        } => {
            let sent = sent_packet(*now, packet);
            Call::Sent(sent, epoch(*space), (*status).into(), instant(*now))
        }
        Event::Ack { now, ack, status } => {
            let words = held.words().to_vec();
            held.empty();
            Call::Ack(AckCall {
                ranges: range_set(&words),
                words,
                delay_micros: ack.delay_micros,
                epoch: epoch(ack.space),
                status: (*status).into(),
                now: instant(*now),
                skipped: Some(ack.skipped).filter(|&n| n != NONE_SKIPPED),
                limited: ack.limited,
            })
        }
        Event::Timeout { now, status } => Call::Timeout((*status).into(), instant(*now)),
        Event::Discard { now, space, status } => {
            Call::Discard(epoch(*space), (*status).into(), instant(*now))
        }
        Event::Size(size) => Call::Size(*size as usize),
        Event::TakeAcked(space) => Call::TakeAcked(epoch(*space)),
        Event::TakeLost(space) => Call::TakeLost(epoch(*space)),
        Event::Ping(space) => Call::Ping(epoch(*space)),
    })
}

/// Whether an ack's set of ranges is there before the clock starts. The crate builds one from
/// each ACK frame that it parses.
#[derive(Clone, Copy, PartialEq, Eq)]
pub enum Ranges {
    Ready,
    Built,
}

/// The real recovery, with a sum over all its answers, so that nothing can be left out.
pub struct Alone {
    recovery: LegacyRecovery,
    ranges: Ranges,
    sum: u64,
}

impl Alone {
    pub fn new(settings: &Settings, ranges: Ranges) -> Self {
        Alone {
            recovery: recovery(settings),
            ranges,
            sum: 0,
        }
    }

    /// The window and the sum.
    pub fn came_to(&self) -> (u64, u64) {
        (self.recovery.cwnd() as u64, self.sum)
    }

    #[inline]
    pub fn make(&mut self, call: &Call) {
        let recovery = &mut self.recovery;
        match call {
            Call::Sent(sent, epoch, status, now) => {
                recovery.on_packet_sent(sent.clone(), *epoch, *status, *now, "");
            }
            Call::Ack(ack) => self.make_ack(ack),
            Call::Timeout(status, now) => {
                let outcome = recovery.on_loss_detection_timeout(*status, *now, "");
                self.sum += outcome.lost_bytes as u64;
            }
            Call::Discard(epoch, status, now) => {
                recovery.on_pkt_num_space_discarded(*epoch, *status, *now);
            }
            Call::Size(size) => recovery.pmtud_update_max_datagram_size(*size),
            Call::TakeAcked(epoch) => {
                self.sum ^= recovery.next_acked_frame(*epoch).map_or(0, |f| f.0);
            }
            Call::TakeLost(epoch) => {
                self.sum ^= recovery.next_lost_frame(*epoch).map_or(0, |f| f.0);
            }
            Call::Ping(epoch) => recovery.ping_sent(*epoch),
        }
    }

    #[inline]
    fn make_ack(&mut self, ack: &AckCall) {
        let built;
        let ranges = match self.ranges {
            Ranges::Ready => &ack.ranges,
            Ranges::Built => {
                built = range_set(&ack.words);
                &built
            }
        };
        let (delay, status, now) = (ack.delay_micros, ack.status, ack.now);
        self.recovery.update_app_limited(ack.limited);
        let outcome = self
            .recovery
            .on_ack_received(ranges, delay, ack.epoch, status, now, ack.skipped, "")
            .expect("inside the domain");
        self.sum += (outcome.acked_bytes + outcome.lost_bytes) as u64;
    }
}
