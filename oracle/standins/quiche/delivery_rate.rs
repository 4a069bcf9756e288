//! Inert stand-in for the delivery rate: 01 has none, and nothing reads it here.

use std::time::Duration;
use std::time::Instant;

use super::recovery::Acked;
use crate::recovery::Bandwidth;
use crate::recovery::Sent;

#[derive(Clone, Debug, Default)]
pub struct Rate;

impl Rate {
    pub fn on_packet_sent(&mut self, _: &mut Sent, _bytes_in_flight: usize, _bytes_lost: u64) {}

    pub fn update_rate_sample(&mut self, _: &Acked, _now: Instant) {}

    pub fn generate_rate_sample(&mut self, _min_rtt: Duration) {}

    pub fn update_app_limited(&mut self, _v: bool) {}

    pub fn sample_delivery_rate(&self) -> Bandwidth {
        Bandwidth::zero()
    }
}
