//! Reads the recovery's private state. A child module, so that no field changes.

use std::time::Duration;
use std::time::Instant;

use super::{Epoch, LegacyRecovery, RecoveryEpoch, RecoveryOps, Sent};
use crate::recovery::congestion::cubic::observed::OBSERVED_CUBIC;
use crate::recovery::congestion::cubic::view::CubicView;

/// Everything the recovery holds that 01 speaks of.
#[derive(Clone, Debug)]
pub struct RecoveryView {
    pub latest_rtt: Duration,
    pub smoothed_rtt: Duration,
    pub rttvar: Duration,
    pub min_rtt: Duration,
    pub max_rtt: Option<Duration>,
    pub has_sample: bool,
    pub pto: Duration,
    pub timer: Option<Instant>,
    pub pto_count: u32,
    pub packet_threshold: u64,
    pub time_threshold: f64,
    pub spurious_count: usize,
    pub bytes_in_flight: usize,
    pub datagram_size: usize,
    pub non_eliciting_run: usize,
    pub window: usize,
    pub available: usize,
    pub threshold: usize,
    pub slow_start_bytes: usize,
    pub recovery_start: Option<Instant>,
    pub app_limited: bool,
    pub lost_count: usize,
    pub cubic: CubicView,
    pub spaces: [SpaceView; 3],
}

/// What one packet number space holds.
#[derive(Clone, Copy, Debug)]
pub struct SpaceView {
    pub last_eliciting: Option<Instant>,
    pub largest_acked: Option<u64>,
    pub loss_time: Option<Instant>,
    pub probes: usize,
    pub in_flight_count: usize,
    pub records: usize,
    pub outstanding: usize,
    pub acked_queue: usize,
    pub lost_queue: usize,
    pub pto_queue: usize,
    pub elicits_ack: bool,
}

/// The handles one space has queued, oldest first.
pub struct QueueView {
    pub acked: Vec<u64>,
    pub lost: Vec<u64>,
    pub pto: Vec<u64>,
}

impl LegacyRecovery {
    pub fn view(&self) -> RecoveryView {
        let rtt = &self.rtt_stats;
        let congestion = &self.congestion;
        RecoveryView {
            latest_rtt: rtt.latest_rtt,
            smoothed_rtt: rtt.smoothed_rtt,
            rttvar: rtt.rttvar,
            min_rtt: *rtt.min_rtt,
            max_rtt: rtt.max_rtt(),
            has_sample: rtt.has_first_rtt_sample,
            pto: self.pto(),
            timer: self.loss_timer.time,
            pto_count: self.pto_count,
            packet_threshold: self.pkt_thresh,
            time_threshold: self.time_thresh,
            spurious_count: self.lost_spurious_count,
            bytes_in_flight: self.bytes_in_flight.get(),
            datagram_size: self.max_datagram_size,
            non_eliciting_run: self.outstanding_non_ack_eliciting,
            window: congestion.congestion_window,
            available: self.cwnd_available(),
            threshold: congestion.ssthresh.get(),
            slow_start_bytes: congestion.bytes_acked_sl,
            recovery_start: congestion.congestion_recovery_start_time,
            app_limited: congestion.app_limited,
            lost_count: congestion.lost_count,
            cubic: congestion.cubic_state.view(),
            spaces: [Epoch::Initial, Epoch::Handshake, Epoch::Application]
                .map(|e| self.space_view(e)),
        }
    }

    fn space_view(&self, epoch: Epoch) -> SpaceView {
        let space = &self.epochs[epoch];
        SpaceView {
            last_eliciting: space.time_of_last_ack_eliciting_packet,
            largest_acked: space.largest_acked_packet,
            loss_time: space.loss_time,
            probes: space.loss_probes,
            in_flight_count: space.in_flight_count,
            records: space.sent_packets.len(),
            outstanding: space.outstanding(),
            acked_queue: space.acked_frames.len(),
            lost_queue: space.lost_frames_ack.len(),
            pto_queue: space.lost_frames_pto.len(),
            elicits_ack: self.should_elicit_ack(epoch),
        }
    }

    /// The records of one space, oldest first.
    pub fn records(&self, epoch: Epoch) -> impl Iterator<Item = &Sent> + '_ {
        self.epochs[epoch].sent_packets.iter()
    }

    pub fn record_count(&self, epoch: Epoch) -> usize {
        self.epochs[epoch].sent_packets.len()
    }

    /// The longest that a queue of this space could become by one event.
    pub fn longest_queue_after_one_event(&self, epoch: Epoch) -> usize {
        let space = &self.epochs[epoch];
        let longest = space.acked_frames.len().max(space.lost_frames_ack.len());
        longest.max(space.lost_frames_pto.len()) + space.sent_packets.len()
    }

    pub fn timeouts_in_a_row(&self) -> u32 {
        self.pto_count
    }

    pub fn queues(&self, epoch: Epoch) -> QueueView {
        let space = &self.epochs[epoch];
        let handles = |queue: &[crate::frame::Frame]| queue.iter().map(|f| f.0).collect();
        QueueView {
            acked: handles(&space.acked_frames),
            lost: handles(&space.lost_frames_ack),
            pto: handles(&space.lost_frames_pto),
        }
    }

    pub fn timer(&self) -> Option<Instant> {
        self.loss_timer.time
    }

    /// From now on CUBIC's functions are called through the table that notes.
    pub fn observe(&mut self) {
        self.congestion.cc_ops = &OBSERVED_CUBIC;
    }
}

impl RecoveryEpoch {
    /// Records neither acked nor lost.
    fn outstanding(&self) -> usize {
        let open = |p: &&Sent| p.time_acked.is_none() && p.time_lost.is_none();
        self.sent_packets.iter().filter(open).count()
    }
}
