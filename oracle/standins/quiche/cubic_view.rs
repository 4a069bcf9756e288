//! Reads CUBIC's private state. A child module, so that no field changes.

use std::time::Instant;

use super::State;

/// Everything CUBIC holds that 01 speaks of.
#[derive(Clone, Copy, Debug)]
pub struct CubicView {
    pub k: f64,
    pub w_max: f64,
    pub w_est: f64,
    pub alpha: f64,
    pub cwnd_inc: usize,
    pub checkpoint: CheckpointView,
}

/// The state from before the latest recovery period.
#[derive(Clone, Copy, Debug)]
pub struct CheckpointView {
    pub window: usize,
    pub threshold: usize,
    pub w_max: f64,
    pub k: f64,
    pub recovery_start: Option<Instant>,
    pub lost_count: usize,
}

impl State {
    pub fn view(&self) -> CubicView {
        CubicView {
            k: self.k,
            w_max: self.w_max,
            w_est: self.w_est,
            alpha: self.alpha_aimd,
            cwnd_inc: self.cwnd_inc,
            checkpoint: CheckpointView {
                window: self.prior.congestion_window,
                threshold: self.prior.ssthresh,
                w_max: self.prior.w_max,
                k: self.prior.k,
                recovery_start: self.prior.epoch_start,
                lost_count: self.prior.lost_count,
            },
        }
    }
}
