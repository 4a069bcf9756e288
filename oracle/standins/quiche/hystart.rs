//! Inert stand-in for HyStart++: 01 has it off, so it is never in CSS.

use std::time::Duration;
use std::time::Instant;

use super::recovery::Acked;

#[derive(Clone, Debug)]
pub struct Hystart;

impl Hystart {
    pub fn new(enabled: bool) -> Self {
        assert!(!enabled, "HyStart++ has no body here");
        Hystart
    }

    pub fn enabled(&self) -> bool {
        false
    }

    pub fn in_css(&self) -> bool {
        false
    }

    pub fn start_round(&mut self, _pkt_num: u64) {}

    pub fn css_cwnd_inc(&self, _max_datagram_size: usize) -> usize {
        unreachable!("never in CSS")
    }

    pub fn css_start_time(&self) -> Option<Instant> {
        None
    }

    pub fn on_packet_acked(&mut self, _: &Acked, _: Duration, _: Instant) -> bool {
        false
    }

    pub fn congestion_event(&mut self) {}
}
