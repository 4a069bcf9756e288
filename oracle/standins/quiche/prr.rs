//! Inert stand-in for PRR: `snd_cnt` stays 0, so `cwnd_available` is without it.

#[derive(Clone, Debug, Default)]
pub struct PRR {
    pub snd_cnt: usize,
}

impl PRR {
    pub fn on_packet_sent(&mut self, _sent_bytes: usize) {}

    pub fn on_packet_acked(
        &mut self,
        _acked_bytes: usize,
        _bytes_in_flight: usize,
        _ssthresh: usize,
        _max_datagram_size: usize,
    ) {
    }

    pub fn congestion_event(&mut self, _bytes_in_flight: usize) {}
}
