//! The real recovery behind 01's events.

use std::time::Duration;

use quiche::frame::Frame;
use quiche::packet::Epoch;
use quiche::ranges::RangeSet;
use quiche::recovery::congestion::recovery::LegacyRecovery;
use quiche::recovery::{
    CongestionControlAlgorithm, HandshakeStatus, RecoveryConfig, RecoveryOps, Sent,
};

use crate::careful;
use crate::event::{Ack, Packet, Status, NONE_SKIPPED};
use crate::front::{Front, Refusal, MOST_HANDLES, MOST_RECORDS};
use crate::moment::{instant, moment};
use crate::settings::Settings;
use crate::snapshot::{Queues, Record, Snapshot};

const EPOCHS: [Epoch; 3] = [Epoch::Initial, Epoch::Handshake, Epoch::Application];

/// What an accepted event answers.
#[derive(Clone, Copy, Debug, PartialEq, Eq)]
pub enum Answer {
    Nothing,
    Acked {
        lost_packets: u64,
        lost_bytes: u64,
        acked_bytes: u64,
        spurious: u64,
    },
    TimedOut {
        lost_packets: u64,
        lost_bytes: u64,
    },
    /// 0 from an empty queue.
    Handle(u64),
}

pub type Outcome = Result<Answer, Refusal>;

/// A connection's recovery as quiche has it, with 01's refusals in front.
#[derive(Clone)]
pub struct Oracle {
    settings: Settings,
    front: Front,
    recovery: LegacyRecovery,
}

pub(crate) fn epoch(space: u8) -> Epoch {
    EPOCHS[usize::from(space)]
}

/// The real recovery with 01's settings, and those that 01 doesn't have as it wants them.
pub(crate) fn recovery(settings: &Settings) -> LegacyRecovery {
    LegacyRecovery::new_with_config(&RecoveryConfig {
        initial_rtt: Duration::from_nanos(settings.initial_rtt),
        max_send_udp_payload_size: settings.datagram_size as usize,
        max_ack_delay: Duration::from_nanos(settings.max_ack_delay),
        cc_algorithm: CongestionControlAlgorithm::CUBIC,
        hystart: false,
        pacing: false,
        max_pacing_rate: None,
        initial_congestion_window_packets: settings.initial_packets as usize,
        enable_relaxed_loss_threshold: false,
        enable_cubic_idle_restart_fix: true,
    })
}

/// Words are starts and ends in turn.
pub(crate) fn range_set(words: &[u64]) -> RangeSet {
    let mut ranges = RangeSet::default();
    words.chunks(2).for_each(|r| ranges.insert(r[0]..r[1]));
    ranges
}

impl From<Status> for HandshakeStatus {
    fn from(status: Status) -> HandshakeStatus {
        HandshakeStatus {
            has_handshake_keys: status.keys(),
            peer_verified_address: status.verified(),
            completed: status.completed(),
        }
    }
}

impl Oracle {
    /// Refuses with 2 a setting outside its range.
    pub fn new(settings: Settings) -> Result<Oracle, Refusal> {
        let settings = settings.judged()?;
        Ok(Oracle {
            settings,
            front: Front::default(),
            recovery: recovery(&settings),
        })
    }

    /// From now on CUBIC notes what it does, for `coverage`.
    pub fn observe(&mut self) {
        self.recovery.observe();
    }

    pub fn on_packet_sent(
        &mut self,
        now: u64,
        space: u8,
        packet: &Packet,
        status: Status,
    ) -> Outcome {
        self.front.sent(now, space, packet)?;
        if self.recovery.record_count(epoch(space)) >= MOST_RECORDS {
            return Err(Refusal::Full);
        }
        let send = |oracle: &mut Oracle| oracle.apply_sent(now, space, packet, status);
        let near = self.is_near_the_largest_time(now, 0);
        let answer = self.taken_back_if_refused(near, send, |_, after, settings| {
            let judged = packet.flags.in_flight();
            careful::timer(judged, after, settings, status, now)
        })?;
        self.front.accept_now(now);
        self.front.accept_number(space, packet.number);
        Ok(answer)
    }

    /// `words` are starts and ends of ranges in turn.
    pub fn on_ack_received(
        &mut self,
        now: u64,
        ack: &Ack,
        words: &[u64],
        status: Status,
    ) -> Outcome {
        self.front.ack(now, ack, words)?;
        let near = self.is_near_the_largest_time(now, ack.delay_micros)
            || self.is_near_a_full_queue(ack.space);
        let sampled = near && self.would_sample_again(ack.space, words);
        let apply = |oracle: &mut Oracle| oracle.apply_ack(now, ack, words, status);
        let answer = self.taken_back_if_refused(near, apply, |before, after, settings| {
            careful::ack(before, after, settings, now, ack, status, sampled)
        })?;
        self.front.accept_now(now);
        Ok(answer)
    }

    pub fn on_loss_detection_timeout(&mut self, now: u64, status: Status) -> Outcome {
        self.front.clock(now)?;
        let near = self.is_near_the_largest_time(now, 0)
            || (0..3).any(|space| self.is_near_a_full_queue(space));
        let apply = |oracle: &mut Oracle| oracle.apply_timeout(now, status);
        let answer = self.taken_back_if_refused(near, apply, |before, after, settings| {
            careful::timeout(before, after, settings, now, status)
        })?;
        self.front.accept_now(now);
        Ok(answer)
    }

    pub fn on_pkt_num_space_discarded(&mut self, now: u64, space: u8, status: Status) -> Outcome {
        self.front.clock(now)?;
        Front::space(space)?;
        let near = self.is_near_the_largest_time(now, 0);
        let apply = |oracle: &mut Oracle| {
            let (epoch, now) = (epoch(space), instant(now));
            oracle
                .recovery
                .on_pkt_num_space_discarded(epoch, status.into(), now);
            Answer::Nothing
        };
        let answer = self.taken_back_if_refused(near, apply, |_, after, settings| {
            careful::timer(true, after, settings, status, now)
        })?;
        self.front.accept_now(now);
        Ok(answer)
    }

    pub fn on_size_change(&mut self, size: u64) -> Outcome {
        Front::datagram_size(size)?;
        self.recovery.pmtud_update_max_datagram_size(size as usize);
        Ok(Answer::Nothing)
    }

    pub fn take_acked(&mut self, space: u8) -> Outcome {
        Front::space(space)?;
        let frame = self.recovery.next_acked_frame(epoch(space));
        Ok(Answer::Handle(frame.map_or(0, |f| f.0)))
    }

    pub fn take_lost(&mut self, space: u8) -> Outcome {
        Front::space(space)?;
        let frame = self.recovery.next_lost_frame(epoch(space));
        Ok(Answer::Handle(frame.map_or(0, |f| f.0)))
    }

    pub fn ping_sent(&mut self, space: u8) -> Outcome {
        Front::space(space)?;
        self.recovery.ping_sent(epoch(space));
        Ok(Answer::Nothing)
    }

    pub fn settings(&self) -> &Settings {
        &self.settings
    }

    /// The `now` of the last accepted event that carried one.
    pub fn last_now(&self) -> u64 {
        self.front.last_now()
    }

    /// The largest number sent in a space, discarded or not.
    pub fn last_sent(&self, space: u8) -> Option<u64> {
        self.front.last_sent(space)
    }

    pub fn window(&self) -> u64 {
        self.recovery.cwnd() as u64
    }

    pub fn in_flight(&self) -> u64 {
        self.recovery.bytes_in_flight() as u64
    }

    pub fn timer(&self) -> Option<u64> {
        self.recovery.timer().map(moment)
    }

    pub fn snapshot(&self) -> Snapshot {
        Snapshot::from(&self.recovery.view())
    }

    /// The records of one space, oldest first.
    pub fn records(&self, space: u8) -> Vec<Record> {
        self.recovery.records(epoch(space)).map(record).collect()
    }

    pub fn queues(&self, space: u8) -> Queues {
        let held = self.recovery.queues(epoch(space));
        Queues {
            acked: held.acked,
            lost: held.lost,
            pto: held.pto,
        }
    }

    fn apply_sent(&mut self, now: u64, space: u8, packet: &Packet, status: Status) -> Answer {
        let sent = sent_packet(now, packet);
        let (epoch, now) = (epoch(space), instant(now));
        self.recovery
            .on_packet_sent(sent, epoch, status.into(), now, "");
        Answer::Nothing
    }

    fn apply_ack(&mut self, now: u64, ack: &Ack, words: &[u64], status: Status) -> Answer {
        let ranges = range_set(words);
        let skipped = Some(ack.skipped).filter(|&n| n != NONE_SKIPPED);
        self.recovery.update_app_limited(ack.limited);
        let outcome = self
            .recovery
            .on_ack_received(
                &ranges,
                ack.delay_micros,
                epoch(ack.space),
                status.into(),
                instant(now),
                skipped,
                "",
            )
            .expect("the front refuses a range with the skipped number");
        Answer::Acked {
            lost_packets: outcome.lost_packets as u64,
            lost_bytes: outcome.lost_bytes as u64,
            acked_bytes: outcome.acked_bytes as u64,
            spurious: outcome.spurious_losses as u64,
        }
    }

    fn apply_timeout(&mut self, now: u64, status: Status) -> Answer {
        let outcome = self
            .recovery
            .on_loss_detection_timeout(status.into(), instant(now), "");
        Answer::TimedOut {
            lost_packets: outcome.lost_packets as u64,
            lost_bytes: outcome.lost_bytes as u64,
        }
    }

    fn is_near_the_largest_time(&self, now: u64, delay_micros: u64) -> bool {
        careful::is_near(now, delay_micros, self.recovery.timeouts_in_a_row())
    }

    fn is_near_a_full_queue(&self, space: u8) -> bool {
        self.recovery.longest_queue_after_one_event(epoch(space)) > MOST_HANDLES
    }

    /// Runs an event on the real recovery. Where it is near a limit that the Rust
    /// doesn't have, `judge` looks at both states and a refused event is undone.
    fn taken_back_if_refused(
        &mut self,
        near: bool,
        apply: impl FnOnce(&mut Oracle) -> Answer,
        judge: impl FnOnce(&Snapshot, &Snapshot, &Settings) -> Result<(), Refusal>,
    ) -> Outcome {
        if !near {
            return Ok(apply(self));
        }
        let kept = self.clone();
        let before = self.snapshot();
        let answer = apply(self);
        let judged = judge(&before, &self.snapshot(), &self.settings);
        if judged.is_err() {
            *self = kept;
        }
        judged.map(|()| answer)
    }

    /// Whether these ranges bring a sample after the first one (01, steps 1 and 5).
    fn would_sample_again(&self, space: u8, words: &[u64]) -> bool {
        let view = self.recovery.view();
        let named = |number| words.chunks(2).any(|r| (r[0]..r[1]).contains(&number));
        let newly_acked: Vec<&Sent> = self
            .recovery
            .records(epoch(space))
            .filter(|p| p.time_acked.is_none() && p.time_lost.is_none() && named(p.pkt_num))
            .collect();
        let stored = view.spaces[usize::from(space)].largest_acked.unwrap_or(0);
        view.has_sample
            && newly_acked.iter().any(|p| p.ack_eliciting)
            && newly_acked.last().is_some_and(|p| p.pkt_num >= stored)
    }
}

pub(crate) fn sent_packet(now: u64, packet: &Packet) -> Sent {
    let now = instant(now);
    let handle = Some(Frame(packet.handle)).filter(|h| h.0 != 0);
    Sent {
        pkt_num: packet.number,
        frames: handle.into_iter().collect(),
        time_sent: now,
        time_acked: None,
        time_lost: None,
        size: packet.size as usize,
        ack_eliciting: packet.flags.eliciting(),
        in_flight: packet.flags.in_flight(),
        delivered: 0,
        delivered_time: now,
        first_sent_time: now,
        is_app_limited: false,
        tx_in_flight: 0,
        lost: 0,
        has_data: packet.flags.data(),
        is_pmtud_probe: packet.flags.probe(),
    }
}

fn record(sent: &Sent) -> Record {
    Record {
        number: sent.pkt_num,
        sent: moment(sent.time_sent),
        acked: sent.time_acked.map(moment),
        lost: sent.time_lost.map(moment),
        size: sent.size as u64,
        eliciting: sent.ack_eliciting,
        in_flight: sent.in_flight,
        data: sent.has_data,
        probe: sent.is_pmtud_probe,
        handle: sent.frames.first().map_or(0, |f| f.0),
    }
}
