//! Everything the oracle holds, as plain comparable values.

use std::fmt;
use std::time::Instant;

use quiche::recovery::congestion::cubic::view::CubicView;
use quiche::recovery::congestion::recovery::view::{RecoveryView, SpaceView};

use crate::moment::{moment, span};

/// Times are nanoseconds, floats are bit patterns.
#[derive(Clone, Debug, PartialEq, Eq)]
pub struct Snapshot {
    pub rtt: RttSnapshot,
    pub timer: Option<u64>,
    pub pto_count: u32,
    pub packet_threshold: u64,
    pub time_threshold: u64,
    pub spurious_count: u64,
    pub lost_count: u64,
    pub non_eliciting_run: u64,
    pub in_flight: u64,
    pub datagram_size: u64,
    pub window: u64,
    /// What may be sent; 2^64 - 1 while a space has probes.
    pub available: u64,
    pub threshold: u64,
    pub slow_start_bytes: u64,
    pub recovery_start: Option<u64>,
    pub app_limited: bool,
    pub cubic: CubicSnapshot,
    pub checkpoint: CheckpointSnapshot,
    pub spaces: [SpaceSnapshot; 3],
}

#[derive(Clone, Copy, Debug, PartialEq, Eq)]
pub struct RttSnapshot {
    pub latest: u64,
    pub smoothed: u64,
    pub rttvar: u64,
    /// The initial RTT before the first sample, as CUBIC reads it.
    pub min: u64,
    /// None before the first sample.
    pub max: Option<u64>,
    pub has_sample: bool,
    /// One PTO without doubling and without max ack delay.
    pub pto: u64,
}

impl RttSnapshot {
    /// What the loss delay is made from.
    pub fn larger(&self) -> u64 {
        self.latest.max(self.smoothed)
    }
}

#[derive(Clone, Copy, Debug, PartialEq, Eq)]
pub struct CubicSnapshot {
    pub w_max: u64,
    pub k: u64,
    pub w_est: u64,
    pub alpha: u64,
    pub cwnd_inc: u64,
}

#[derive(Clone, Copy, Debug, PartialEq, Eq)]
pub struct CheckpointSnapshot {
    pub window: u64,
    pub threshold: u64,
    pub w_max: u64,
    pub k: u64,
    pub recovery_start: Option<u64>,
    pub lost_count: u64,
}

#[derive(Clone, Copy, Debug, PartialEq, Eq)]
pub struct SpaceSnapshot {
    pub last_eliciting: Option<u64>,
    pub largest_acked: Option<u64>,
    pub loss_time: Option<u64>,
    pub probes: u64,
    pub in_flight_count: u64,
    pub records: u64,
    /// Records neither acked nor lost.
    pub outstanding: u64,
    pub acked_queue: u64,
    pub lost_queue: u64,
    pub pto_queue: u64,
    pub elicits_ack: bool,
}

/// One packet record.
#[derive(Clone, Copy, Debug, PartialEq, Eq)]
pub struct Record {
    pub number: u64,
    pub sent: u64,
    pub acked: Option<u64>,
    pub lost: Option<u64>,
    pub size: u64,
    pub eliciting: bool,
    pub in_flight: bool,
    pub data: bool,
    pub probe: bool,
    /// 0 for none; the Rust takes it out when it is queued as acked or lost.
    pub handle: u64,
}

/// The handles queued in one space, oldest first.
#[derive(Clone, Debug, PartialEq, Eq)]
pub struct Queues {
    pub acked: Vec<u64>,
    pub lost: Vec<u64>,
    pub pto: Vec<u64>,
}

fn optional(time: Option<Instant>) -> Option<u64> {
    time.map(moment)
}

impl From<&RecoveryView> for Snapshot {
    fn from(v: &RecoveryView) -> Self {
        Snapshot {
            rtt: RttSnapshot::from(v),
            timer: optional(v.timer),
            pto_count: v.pto_count,
            packet_threshold: v.packet_threshold,
            time_threshold: v.time_threshold.to_bits(),
            spurious_count: v.spurious_count as u64,
            lost_count: v.lost_count as u64,
            non_eliciting_run: v.non_eliciting_run as u64,
            in_flight: v.bytes_in_flight as u64,
            datagram_size: v.datagram_size as u64,
            window: v.window as u64,
            available: v.available as u64,
            threshold: v.threshold as u64,
            slow_start_bytes: v.slow_start_bytes as u64,
            recovery_start: optional(v.recovery_start),
            app_limited: v.app_limited,
            cubic: CubicSnapshot::from(&v.cubic),
            checkpoint: CheckpointSnapshot::from(&v.cubic),
            spaces: v.spaces.each_ref().map(SpaceSnapshot::from),
        }
    }
}

impl From<&RecoveryView> for RttSnapshot {
    fn from(v: &RecoveryView) -> Self {
        RttSnapshot {
            latest: span(v.latest_rtt),
            smoothed: span(v.smoothed_rtt),
            rttvar: span(v.rttvar),
            min: span(v.min_rtt),
            max: v.max_rtt.map(span),
            has_sample: v.has_sample,
            pto: span(v.pto),
        }
    }
}

impl From<&CubicView> for CubicSnapshot {
    fn from(v: &CubicView) -> Self {
        CubicSnapshot {
            w_max: v.w_max.to_bits(),
            k: v.k.to_bits(),
            w_est: v.w_est.to_bits(),
            alpha: v.alpha.to_bits(),
            cwnd_inc: v.cwnd_inc as u64,
        }
    }
}

impl From<&CubicView> for CheckpointSnapshot {
    fn from(v: &CubicView) -> Self {
        let prior = &v.checkpoint;
        CheckpointSnapshot {
            window: prior.window as u64,
            threshold: prior.threshold as u64,
            w_max: prior.w_max.to_bits(),
            k: prior.k.to_bits(),
            recovery_start: optional(prior.recovery_start),
            lost_count: prior.lost_count as u64,
        }
    }
}

impl From<&SpaceView> for SpaceSnapshot {
    fn from(v: &SpaceView) -> Self {
        SpaceSnapshot {
            last_eliciting: optional(v.last_eliciting),
            largest_acked: v.largest_acked,
            loss_time: optional(v.loss_time),
            probes: v.probes as u64,
            in_flight_count: v.in_flight_count as u64,
            records: v.records as u64,
            outstanding: v.outstanding as u64,
            acked_queue: v.acked_queue as u64,
            lost_queue: v.lost_queue as u64,
            pto_queue: v.pto_queue as u64,
            elicits_ack: v.elicits_ack,
        }
    }
}

/// An unset value prints as `-`.
pub fn or_dash(value: Option<u64>) -> String {
    value.map_or("-".to_string(), |v| v.to_string())
}

/// Several lines, each `  part name=value ..`, floats in hexadecimal.
impl fmt::Display for Snapshot {
    fn fmt(&self, f: &mut fmt::Formatter) -> fmt::Result {
        writeln!(
            f,
            "  loss timer={} pto_count={} packet_threshold={} time_threshold={:016x} \
             spurious={} lost={} non_eliciting={} in_flight={} datagram={}",
            or_dash(self.timer),
            self.pto_count,
            self.packet_threshold,
            self.time_threshold,
            self.spurious_count,
            self.lost_count,
            self.non_eliciting_run,
            self.in_flight,
            self.datagram_size,
        )?;
        writeln!(f, "  {}", self.rtt)?;
        writeln!(
            f,
            "  window window={} available={} threshold={} slow_start_bytes={} \
             recovery_start={} limited={}",
            self.window,
            self.available,
            self.threshold,
            self.slow_start_bytes,
            or_dash(self.recovery_start),
            u8::from(self.app_limited),
        )?;
        writeln!(f, "  {}", self.cubic)?;
        writeln!(f, "  {}", self.checkpoint)?;
        for (number, space) in self.spaces.iter().enumerate() {
            writeln!(f, "  space{number} {space}")?;
        }
        Ok(())
    }
}

impl fmt::Display for RttSnapshot {
    fn fmt(&self, f: &mut fmt::Formatter) -> fmt::Result {
        write!(
            f,
            "rtt latest={} smoothed={} rttvar={} min={} max={} sampled={} pto={}",
            self.latest,
            self.smoothed,
            self.rttvar,
            self.min,
            or_dash(self.max),
            u8::from(self.has_sample),
            self.pto,
        )
    }
}

impl fmt::Display for CubicSnapshot {
    fn fmt(&self, f: &mut fmt::Formatter) -> fmt::Result {
        write!(
            f,
            "cubic w_max={:016x} k={:016x} w_est={:016x} alpha={:016x} cwnd_inc={}",
            self.w_max, self.k, self.w_est, self.alpha, self.cwnd_inc,
        )
    }
}

impl fmt::Display for CheckpointSnapshot {
    fn fmt(&self, f: &mut fmt::Formatter) -> fmt::Result {
        write!(
            f,
            "checkpoint window={} threshold={} w_max={:016x} k={:016x} start={} lost={}",
            self.window,
            self.threshold,
            self.w_max,
            self.k,
            or_dash(self.recovery_start),
            self.lost_count,
        )
    }
}

impl fmt::Display for SpaceSnapshot {
    fn fmt(&self, f: &mut fmt::Formatter) -> fmt::Result {
        write!(
            f,
            "last_eliciting={} largest_acked={} loss_time={} probes={} in_flight={} records={} \
             outstanding={} acked_queue={} lost_queue={} pto_queue={} elicits_ack={}",
            or_dash(self.last_eliciting),
            or_dash(self.largest_acked),
            or_dash(self.loss_time),
            self.probes,
            self.in_flight_count,
            self.records,
            self.outstanding,
            self.acked_queue,
            self.lost_queue,
            self.pto_queue,
            u8::from(self.elicits_ack),
        )
    }
}
