//! Builds small traces by hand. Packets are data of 1,200 bytes in Application,
//! the handshake completed, unless a case says otherwise.

use crate::event::{Ack, Event, Flags, Packet, Status, NONE_SKIPPED};
use crate::trace::written;

pub const MILLI: u64 = 1_000_000;
pub const APPLICATION: u8 = 2;

#[derive(Default)]
pub struct Builder {
    bytes: Vec<u8>,
}

/// An ordinary packet.
pub fn packet(number: u64) -> Packet {
    Packet {
        number,
        size: 1_200,
        flags: Flags(7),
        handle: number + 1,
    }
}

/// An ordinary acknowledgement.
pub fn plain_ack() -> Ack {
    Ack {
        space: APPLICATION,
        delay_micros: 0,
        limited: false,
        skipped: NONE_SKIPPED,
    }
}

impl Builder {
    pub fn event(mut self, event: Event) -> Self {
        self.bytes.extend(written(&[event]));
        self
    }

    pub fn raw(mut self, bytes: &[u8]) -> Self {
        self.bytes.extend(bytes);
        self
    }

    pub fn sent(self, now: u64, number: u64) -> Self {
        self.sent_packet(now, packet(number))
    }

    pub fn sent_each(self, now: u64, numbers: std::ops::Range<u64>) -> Self {
        numbers.fold(self, |trace, number| trace.sent(now, number))
    }

    pub fn sent_packet(self, now: u64, packet: Packet) -> Self {
        self.sent_in(now, APPLICATION, packet, Status::ALL)
    }

    pub fn sent_in(self, now: u64, space: u8, packet: Packet, status: Status) -> Self {
        self.event(Event::Sent {
            now,
            space,
            packet,
            status,
        })
    }

    pub fn range(self, start: u64, end: u64) -> Self {
        self.event(Event::Range { start, end })
    }

    /// That many ranges of one number each, apart from one another, from 0 on.
    pub fn ranges_apart(self, count: u64) -> Self {
        (0..count).fold(self, |trace, n| trace.range(2 * n, 2 * n + 1))
    }

    /// A plain ack of one range.
    pub fn acked(self, now: u64, start: u64, end: u64) -> Self {
        self.range(start, end).ack(now, plain_ack())
    }

    /// On the ranges held so far.
    pub fn ack(self, now: u64, ack: Ack) -> Self {
        self.ack_with(now, ack, Status::ALL)
    }

    pub fn ack_with(self, now: u64, ack: Ack, status: Status) -> Self {
        self.event(Event::Ack { now, ack, status })
    }

    pub fn timeout(self, now: u64) -> Self {
        let status = Status::ALL;
        self.event(Event::Timeout { now, status })
    }

    pub fn discard(self, now: u64, space: u8, status: Status) -> Self {
        self.event(Event::Discard { now, space, status })
    }

    pub fn built(self) -> Vec<u8> {
        self.bytes
    }
}
