//! A connection's recovery, under quiche's names.

use std::ops::Range;
use std::time::Duration;

use crate::refusal::Refusal;
use crate::sys;
use crate::values::{
    nanos, Epoch, HandshakeStatus, Moment, OnAckReceivedOutcome, OnLossDetectionTimeoutOutcome,
    RecoveryConfig, Sent,
};

/// One range more than an ack may have: enough to be refused for it.
const RANGES_READ: usize = sys::MOST_RANGES + 1;

/// The loss recovery of one connection, 55,960 bytes in one piece.
#[derive(Clone, Debug, PartialEq)]
pub struct Recovery {
    // Only ever a record that was begun.
    connection: Box<sys::Connection>,
}

/// Events. Each is accepted, or refused and has changed nothing.
impl Recovery {
    /// A connection to which nothing has happened.
    ///
    /// # Errors
    ///
    /// [`Refusal::Domain`] for a setting outside its range.
    pub fn new(config: &RecoveryConfig) -> Result<Recovery, Refusal> {
        let mut connection = sys::Connection::unbegun();
        // SAFETY: a whole record, and ours alone.
        let refusal = unsafe {
            sys::skavvilet_begin(
                &mut *connection,
                config.max_send_udp_payload_size,
                config.initial_congestion_window_packets,
                nanos(config.initial_rtt),
                nanos(config.max_ack_delay),
            )
        };
        Refusal::judged(refusal)?;
        Ok(Recovery { connection })
    }

    /// A packet was sent.
    ///
    /// # Errors
    ///
    /// `Clock`, `Domain`, `Number`, `Full` if 256 records stand in the space, `TooLarge`.
    pub fn on_packet_sent(
        &mut self,
        pkt: Sent,
        epoch: Epoch,
        handshake_status: HandshakeStatus,
        now: Moment,
    ) -> Result<(), Refusal> {
        // SAFETY: a whole record, and ours alone.
        Refusal::judged(unsafe {
            sys::skavvilet_on_packet_sent(
                &mut *self.connection,
                now.0,
                epoch as u64,
                pkt.pkt_num,
                pkt.size,
                pkt.bits(),
                pkt.frames,
                handshake_status.bits(),
            )
        })
    }

    /// An ACK frame came in. `ranges` ascend and do not touch; `ack_delay` is in microseconds;
    /// `skip_pn` is a packet number that was left out on purpose; `app_limited` says that the
    /// application, not the window, limits sending.
    ///
    /// # Errors
    ///
    /// `Clock`, `Domain`, `Ranges`, `Skipped`, `Full` if a queue would pass 256 handles,
    /// `TooLarge`.
    #[allow(clippy::too_many_arguments)]
    pub fn on_ack_received(
        &mut self,
        ranges: &[Range<u64>],
        ack_delay: u64,
        epoch: Epoch,
        handshake_status: HandshakeStatus,
        now: Moment,
        skip_pn: Option<u64>,
        app_limited: bool,
    ) -> Result<OnAckReceivedOutcome, Refusal> {
        let mut words = [0; 2 * RANGES_READ];
        for (pair, range) in words.chunks_exact_mut(2).zip(ranges) {
            pair.copy_from_slice(&[range.start, range.end]);
        }
        // SAFETY: a whole record, ours alone, and as many words as are said to stand there.
        let answer = unsafe {
            sys::skavvilet_on_ack_received(
                &mut *self.connection,
                now.0,
                epoch as u64,
                words.as_ptr(),
                2 * ranges.len().min(RANGES_READ),
                ack_delay,
                handshake_status.bits(),
                u8::from(app_limited),
                skip_pn.unwrap_or(sys::NONE_SKIPPED),
            )
        };
        Refusal::judged(answer.refusal)?;
        Ok(OnAckReceivedOutcome {
            lost_packets: answer.lost_packets,
            lost_bytes: answer.lost_bytes,
            acked_bytes: answer.acked_bytes,
            spurious_losses: answer.spurious_losses,
        })
    }

    /// The timer ran out. An earlier call does the same.
    ///
    /// # Errors
    ///
    /// `Clock`, `Full` if a queue would pass 256 handles, `TooLarge`.
    pub fn on_loss_detection_timeout(
        &mut self,
        handshake_status: HandshakeStatus,
        now: Moment,
    ) -> Result<OnLossDetectionTimeoutOutcome, Refusal> {
        let status = handshake_status.bits();
        // SAFETY: a whole record, and ours alone.
        let answer = unsafe {
            sys::skavvilet_on_loss_detection_timeout(&mut *self.connection, now.0, status)
        };
        Refusal::judged(answer.refusal)?;
        Ok(OnLossDetectionTimeoutOutcome {
            lost_packets: answer.lost_packets,
            lost_bytes: answer.lost_bytes,
        })
    }

    /// A space is discarded with its keys.
    ///
    /// # Errors
    ///
    /// `Clock`, `TooLarge`.
    pub fn on_pkt_num_space_discarded(
        &mut self,
        epoch: Epoch,
        handshake_status: HandshakeStatus,
        now: Moment,
    ) -> Result<(), Refusal> {
        let (space, status) = (epoch as u64, handshake_status.bits());
        // SAFETY: a whole record, and ours alone.
        Refusal::judged(unsafe {
            sys::skavvilet_on_pkt_num_space_discarded(&mut *self.connection, now.0, space, status)
        })
    }

    /// The path takes datagrams of this size from now on. The window moves only if it is still
    /// the initial one.
    ///
    /// # Errors
    ///
    /// `Domain` outside 1,200 to 65,527 bytes, `TooLarge`.
    pub fn pmtud_update_max_datagram_size(
        &mut self,
        new_max_datagram_size: u64,
    ) -> Result<(), Refusal> {
        // SAFETY: a whole record, and ours alone.
        Refusal::judged(unsafe {
            sys::skavvilet_pmtud_update_max_datagram_size(
                &mut *self.connection,
                new_max_datagram_size,
            )
        })
    }

    /// Takes the newest handle of an acked packet.
    pub fn next_acked_frame(&mut self, epoch: Epoch) -> Option<u64> {
        // SAFETY: a whole record, and ours alone.
        let answer =
            unsafe { sys::skavvilet_next_acked_frame(&mut *self.connection, epoch as u64) };
        Some(answer.handle).filter(|&handle| handle != 0)
    }

    /// Takes the newest handle that is to be sent again: those of lost packets, then those
    /// that a timeout asked for.
    pub fn next_lost_frame(&mut self, epoch: Epoch) -> Option<u64> {
        // SAFETY: a whole record, and ours alone.
        let answer = unsafe { sys::skavvilet_next_lost_frame(&mut *self.connection, epoch as u64) };
        Some(answer.handle).filter(|&handle| handle != 0)
    }

    /// A probe was sent: one less is to be.
    pub fn ping_sent(&mut self, epoch: Epoch) {
        // SAFETY: a whole record, and ours alone. A begun record and one of three spaces are
        // never refused.
        unsafe { sys::skavvilet_ping_sent(&mut *self.connection, epoch as u64) };
    }
}

/// Read-outs.
impl Recovery {
    /// When [`Recovery::on_loss_detection_timeout`] is due, if at all.
    pub fn loss_detection_timer(&self) -> Option<Moment> {
        self.values().loss_timer.get().map(Moment)
    }

    /// The congestion window, bytes.
    pub fn cwnd(&self) -> u64 {
        self.values().congestion.congestion_window
    }

    /// Bytes that may be sent now; `u64::MAX` while a space has probes to send.
    pub fn cwnd_available(&self) -> u64 {
        self.readouts().cwnd_available
    }

    /// Bytes.
    pub fn bytes_in_flight(&self) -> u64 {
        self.values().bytes_in_flight
    }

    /// The smoothed round trip; the initial one before a sample.
    pub fn rtt(&self) -> Duration {
        Duration::from_nanos(self.values().rtt.smoothed_rtt)
    }

    /// The smallest sample.
    pub fn min_rtt(&self) -> Option<Duration> {
        self.if_sampled(self.values().rtt.min_rtt)
    }

    /// The largest sample.
    pub fn max_rtt(&self) -> Option<Duration> {
        self.if_sampled(self.values().rtt.max_rtt)
    }

    pub fn rttvar(&self) -> Duration {
        Duration::from_nanos(self.values().rtt.rttvar)
    }

    /// One PTO without max ack delay and without doubling; None if it passes 2^53 - 1 ns.
    pub fn pto(&self) -> Option<Duration> {
        let readouts = self.readouts();
        (readouts.pto_is_too_large == 0).then_some(Duration::from_nanos(readouts.pto))
    }

    /// Timeouts by PTO since something was newly acked.
    pub fn pto_count(&self) -> u64 {
        self.values().pto_count
    }

    /// Packets declared lost, PMTUD probes apart.
    pub fn lost_count(&self) -> u64 {
        self.values().congestion.lost_count
    }

    /// Packets declared lost that were acked after all.
    pub fn lost_spurious_count(&self) -> u64 {
        self.values().lost_spurious_count
    }

    /// How many numbers below the largest acked a packet is lost.
    pub fn pkt_thresh(&self) -> u64 {
        self.values().pkt_thresh
    }

    /// How many round trips after it was sent a packet is lost: 9/8, or 5/4 after a spurious
    /// loss.
    pub fn time_thresh(&self) -> f64 {
        match self.values().time_thresh {
            0 => 1.125,
            _ => 1.25,
        }
    }

    /// Bytes.
    pub fn max_datagram_size(&self) -> u64 {
        self.values().max_datagram_size
    }

    /// Whether the next packet there should elicit an ack even if nothing else would make it.
    pub fn should_elicit_ack(&self, epoch: Epoch) -> bool {
        self.readouts().should_elicit_ack[epoch as usize] != 0
    }

    /// Whether [`Recovery::next_lost_frame`] has something there.
    pub fn has_lost_frames(&self, epoch: Epoch) -> bool {
        self.readouts().has_lost_frames[epoch as usize] != 0
    }

    pub fn get_largest_acked_on_epoch(&self, epoch: Epoch) -> Option<u64> {
        self.space(epoch).largest_acked_packet.get()
    }

    /// Kept even if the space was discarded since.
    pub fn largest_sent_pkt_num_on_path(&self, epoch: Epoch) -> Option<u64> {
        self.space(epoch).largest_sent_packet.get()
    }

    /// Probes to be sent, whatever the window says.
    pub fn loss_probes(&self, epoch: Epoch) -> u64 {
        self.space(epoch).loss_probes
    }

    /// Records that stand: sent, and not yet drained.
    pub fn sent_packets_len(&self, epoch: Epoch) -> u64 {
        self.space(epoch).len
    }

    /// Packets in flight.
    pub fn in_flight_count(&self, epoch: Epoch) -> u64 {
        self.space(epoch).in_flight_count
    }

    /// The record itself, every field of it.
    pub fn connection(&self) -> &sys::Connection {
        &self.connection
    }

    fn values(&self) -> &sys::Values {
        &self.connection.values
    }

    fn space(&self, epoch: Epoch) -> &sys::SpaceValues {
        match epoch {
            Epoch::Initial => &self.values().initial,
            Epoch::Handshake => &self.values().handshake,
            Epoch::Application => &self.values().application,
        }
    }

    fn readouts(&self) -> sys::Readouts {
        // SAFETY: by value; nothing is lent.
        unsafe { sys::skavvilet_readouts(*self.values()) }
    }

    fn if_sampled(&self, ns: u64) -> Option<Duration> {
        (self.values().rtt.has_first_rtt_sample != 0).then_some(Duration::from_nanos(ns))
    }
}
