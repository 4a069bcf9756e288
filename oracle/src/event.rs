//! 01's events, with the meaning of their flag and status bytes.

/// What a trace names as the skipped number when there is none.
pub const NONE_SKIPPED: u64 = u64::MAX;

/// The flags byte of a sent packet; other bits are ignored.
#[derive(Clone, Copy, Debug, PartialEq, Eq)]
pub struct Flags(pub u8);

impl Flags {
    pub const ELICITING: u8 = 1;
    pub const IN_FLIGHT: u8 = 2;
    pub const DATA: u8 = 4;
    pub const PROBE: u8 = 8;

    pub fn eliciting(self) -> bool {
        self.0 & Self::ELICITING != 0
    }

    pub fn in_flight(self) -> bool {
        self.0 & Self::IN_FLIGHT != 0
    }

    pub fn data(self) -> bool {
        self.0 & Self::DATA != 0
    }

    pub fn probe(self) -> bool {
        self.0 & Self::PROBE != 0
    }
}

/// The handshake's status byte; other bits are ignored.
#[derive(Clone, Copy, Debug, PartialEq, Eq)]
pub struct Status(pub u8);

impl Status {
    pub const KEYS: u8 = 1;
    pub const VERIFIED: u8 = 2;
    pub const COMPLETED: u8 = 4;
    pub const ALL: Status = Status(7);

    pub fn keys(self) -> bool {
        self.0 & Self::KEYS != 0
    }

    pub fn verified(self) -> bool {
        self.0 & Self::VERIFIED != 0
    }

    pub fn completed(self) -> bool {
        self.0 & Self::COMPLETED != 0
    }
}

/// A packet as it is sent.
#[derive(Clone, Copy, Debug, PartialEq, Eq)]
pub struct Packet {
    pub number: u64,
    pub size: u64,
    pub flags: Flags,
    /// 0 for none.
    pub handle: u64,
}

/// The parts of an acknowledgement that stand in its own body.
#[derive(Clone, Copy, Debug, PartialEq, Eq)]
pub struct Ack {
    pub space: u8,
    pub delay_micros: u64,
    pub limited: bool,
    /// `NONE_SKIPPED` for none.
    pub skipped: u64,
}

/// One item of a trace. Times are nanoseconds from 0.
#[derive(Clone, Debug, PartialEq, Eq)]
pub enum Event {
    Sent {
        now: u64,
        space: u8,
        packet: Packet,
        status: Status,
    },
    Range {
        start: u64,
        end: u64,
    },
    Ack {
        now: u64,
        ack: Ack,
        status: Status,
    },
    Timeout {
        now: u64,
        status: Status,
    },
    Discard {
        now: u64,
        space: u8,
        status: Status,
    },
    Size(u64),
    TakeAcked(u8),
    TakeLost(u8),
    Ping(u8),
}

impl Event {
    /// The trace's kind byte.
    pub fn kind(&self) -> u8 {
        match self {
            Event::Sent { .. } => 1,
            Event::Range { .. } => 2,
            Event::Ack { .. } => 3,
            Event::Timeout { .. } => 4,
            Event::Discard { .. } => 5,
            Event::Size(_) => 6,
            Event::TakeAcked(_) => 7,
            Event::TakeLost(_) => 8,
            Event::Ping(_) => 9,
        }
    }

    pub fn now(&self) -> Option<u64> {
        match self {
            Event::Sent { now, .. }
            | Event::Ack { now, .. }
            | Event::Timeout { now, .. }
            | Event::Discard { now, .. } => Some(*now),
            _ => None,
        }
    }
}
