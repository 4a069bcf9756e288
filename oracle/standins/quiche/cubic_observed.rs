//! CUBIC's own functions behind a table that notes what each of them did.
//!
//! The table calls the real ones and looks at the state before and after, so
//! nothing is edited for counting. Acked packets go in one by one: the real
//! `on_packets_acked` is a loop over them and holds nothing else between them.

use std::cell::RefCell;
use std::time::Instant;

use super::{Acked, Congestion, CongestionControlOps, RttStats, Sent, CUBIC};
use super::{MINIMUM_WINDOW_PACKETS, MIN_ROLLBACK_THRESHOLD, ROLLBACK_THRESHOLD_PERCENT};

/// Something that CUBIC did.
#[derive(Clone, Copy, Debug, PartialEq, Eq)]
pub enum Noted {
    PeriodBegun,
    LossInsidePeriod,
    FastConvergence,
    MinimumWindow,
    RollbackOnAck,
    RollbackOnSpurious,
    RollbackFromSlowStartTurnedDown,
    RollbackOfLargerWindowTurnedDown,
    TooManyLostToRollBack,
    AckedInRecovery,
    AckedAppLimited,
    SlowStartGrowth,
    FriendlyGrowth,
    ConcaveGrowth,
    ConvexGrowth,
}

thread_local! {
    static NOTES: RefCell<Vec<Noted>> = const { RefCell::new(Vec::new()) };
}

/// What was noted on this thread since the last call.
pub fn take_notes() -> Vec<Noted> {
    NOTES.with(|n| std::mem::take(&mut *n.borrow_mut()))
}

fn note(what: Noted) {
    NOTES.with(|n| n.borrow_mut().push(what));
}

pub(crate) static OBSERVED_CUBIC: CongestionControlOps = CongestionControlOps {
    on_init: super::on_init,
    on_packet_sent: super::on_packet_sent,
    on_packets_acked,
    congestion_event,
    checkpoint: super::checkpoint,
    rollback,
    #[cfg(feature = "qlog")]
    state_str: super::state_str,
    debug_fmt: super::debug_fmt,
};

fn on_packets_acked(
    r: &mut Congestion,
    bytes_in_flight: usize,
    packets: &mut Vec<Acked>,
    now: Instant,
    rtt_stats: &RttStats,
) {
    for packet in packets.drain(..) {
        let before = r.clone();
        let mut one = vec![packet];
        let sent = one[0].time_sent;
        (CUBIC.on_packets_acked)(r, bytes_in_flight, &mut one, now, rtt_stats);
        note_acked(&before, r, sent, now);
    }
}

fn note_acked(before: &Congestion, after: &Congestion, sent: Instant, now: Instant) {
    if before.in_congestion_recovery(sent) {
        return note(Noted::AckedInRecovery);
    }
    if before.app_limited {
        return note(Noted::AckedAppLimited);
    }
    if before.congestion_recovery_start_time.is_some() {
        if too_many_lost(before) {
            note(Noted::TooManyLostToRollBack);
        } else if turned_down(before) {
            note_turned_down(before);
        } else {
            return note(Noted::RollbackOnAck);
        }
    }
    if before.congestion_window < before.ssthresh.get() {
        return note(Noted::SlowStartGrowth);
    }
    note_avoidance(after, now);
}

fn too_many_lost(r: &Congestion) -> bool {
    let allowed = r.congestion_window / r.max_datagram_size * ROLLBACK_THRESHOLD_PERCENT / 100;
    r.lost_count - r.cubic_state.prior.lost_count >= allowed.max(MIN_ROLLBACK_THRESHOLD)
}

/// Asks the real function, on a copy.
fn turned_down(r: &Congestion) -> bool {
    !super::rollback(&mut r.clone())
}

fn note_turned_down(r: &Congestion) {
    let prior = &r.cubic_state.prior;
    note(if prior.congestion_window < prior.ssthresh {
        Noted::RollbackFromSlowStartTurnedDown
    } else {
        Noted::RollbackOfLargerWindowTurnedDown
    });
}

fn note_avoidance(after: &Congestion, now: Instant) {
    let cubic = &after.cubic_state;
    let start = after.congestion_recovery_start_time.unwrap_or(now);
    let t = now.saturating_duration_since(start);
    note(if cubic.w_cubic(t, after.max_datagram_size) < cubic.w_est {
        Noted::FriendlyGrowth
    } else if t.as_secs_f64() < cubic.k {
        Noted::ConcaveGrowth
    } else {
        Noted::ConvexGrowth
    });
}

fn congestion_event(
    r: &mut Congestion,
    bytes_in_flight: usize,
    lost_bytes: usize,
    largest_lost: &Sent,
    now: Instant,
) {
    let inside = r.in_congestion_recovery(largest_lost.time_sent);
    let (window, w_max) = (r.congestion_window, r.cubic_state.w_max);
    (CUBIC.congestion_event)(r, bytes_in_flight, lost_bytes, largest_lost, now);
    if inside {
        return note(Noted::LossInsidePeriod);
    }
    note(Noted::PeriodBegun);
    if (window as f64) < w_max {
        note(Noted::FastConvergence);
    }
    if r.congestion_window == r.max_datagram_size * MINIMUM_WINDOW_PACKETS {
        note(Noted::MinimumWindow);
    }
}

fn rollback(r: &mut Congestion) -> bool {
    let before = r.clone();
    let done = (CUBIC.rollback)(r);
    if done {
        note(Noted::RollbackOnSpurious);
    } else {
        note_turned_down(&before);
    }
    done
}
