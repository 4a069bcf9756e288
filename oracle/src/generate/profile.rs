//! The named profiles: how path, sender and receiver behave, and what must come of it.

use crate::coverage::Thing;

const MICRO: u64 = 1_000;
const MILLI: u64 = 1_000_000;
const SECOND: u64 = 1_000_000_000;

/// Chances are in a thousand, times in nanoseconds unless in round trips.
#[derive(Clone, Copy)]
pub struct Knobs {
    /// Drawn once a trace.
    pub round_trip: (u64, u64),
    /// Extra delay of each packet and ack, in thousandths of a round trip.
    pub jitter: u64,
    pub loss: u64,
    pub ack_loss: u64,
    /// Packets held back, and how long, in thousandths of a round trip.
    pub reorder: u64,
    pub reorder_by: (u64, u64),
    /// Chance a round trip that the line goes dead, and for how many round trips.
    pub outage: u64,
    pub outage_round_trips: (u64, u64),
    /// Eliciting packets an ack, drawn for each.
    pub ack_every: (u64, u64),
    /// How long an ack is held back at most.
    pub ack_hold: (u64, u64),
    /// The most ranges that an ack reports, drawn for each.
    pub ranges: (u64, u64),
    /// Chance that the ack's delay is not what it was, and what it is then, in µs.
    pub false_delay: u64,
    pub false_delays: (u64, u64),
    /// Packets sent at one moment, and the pause after them in thousandths of a round trip.
    pub burst: (u64, u64),
    pub pause: (u64, u64),
    pub sizes: (u64, u64),
    /// Chance of a packet number being left out.
    pub number_gap: u64,
    pub with_handle: u64,
    pub not_eliciting: u64,
    /// Chance that a run of 20 to 30 packets begins that elicit nothing.
    pub quiet_run: u64,
    pub not_in_flight: u64,
    /// Chance of a PMTUD probe; half of them are too large for the path.
    pub pmtud_probe: u64,
    /// Chance of a size change after a burst; eight times as likely at the start.
    pub size_change: u64,
    pub handshake: bool,
    /// Chance that the peer counts as not verified or the handshake as not completed.
    pub odd_status: u64,
    /// Chance of a timeout before the timer, where a burst would be sent.
    pub early_timeout: u64,
    /// Most packets in flight that the sender keeps by itself.
    pub most_records: u64,
}

const CALM: Knobs = Knobs {
    round_trip: (20 * MILLI, 80 * MILLI),
    jitter: 20,
    loss: 0,
    ack_loss: 5,
    reorder: 0,
    reorder_by: (0, 0),
    outage: 0,
    outage_round_trips: (0, 0),
    ack_every: (1, 3),
    ack_hold: (MILLI, 5 * MILLI),
    ranges: (3, 8),
    false_delay: 0,
    false_delays: (0, 0),
    burst: (1, 3),
    pause: (5, 60),
    sizes: (600, 1_200),
    number_gap: 5,
    with_handle: 400,
    not_eliciting: 5,
    quiet_run: 0,
    not_in_flight: 5,
    pmtud_probe: 0,
    size_change: 0,
    handshake: false,
    odd_status: 0,
    early_timeout: 0,
    most_records: 200,
};

pub struct Profile {
    pub name: &'static str,
    pub says: &'static str,
    pub knobs: Knobs,
    /// What traces of this profile must cover, or its name is wrong.
    pub reaches: &'static [Thing],
}

pub const PROFILES: &[Profile] = &[
    Profile {
        name: "handshake",
        says: "a handshake over three spaces with discards, then data",
        knobs: Knobs {
            loss: 60,
            handshake: true,
            pause: (50, 3_000),
            not_eliciting: 60,
            ..CALM
        },
        reaches: &[
            Thing::Discard,
            Thing::DiscardInFlight,
            Thing::UnsetLossTimeWins,
            Thing::NoTimerInFlight,
            Thing::IdleTimer,
            Thing::PtoTimeout,
        ],
    },
    Profile {
        name: "steady",
        says: "steady data with 2% loss",
        knobs: Knobs { loss: 20, ..CALM },
        reaches: &[
            Thing::Period,
            Thing::RollbackOnAck,
            Thing::SlowStart,
            Thing::LossTimeout,
            Thing::AckedInRecovery,
            Thing::Concave,
            Thing::FastConvergence,
        ],
    },
    Profile {
        name: "reordering",
        says: "heavy reordering with spurious losses and rollbacks",
        knobs: Knobs {
            loss: 20,
            reorder: 100,
            reorder_by: (50, 1_000),
            ack_every: (1, 8),
            ..CALM
        },
        reaches: &[
            Thing::SpuriousLoss,
            Thing::ThresholdGrew,
            Thing::RollbackOnSpurious,
            Thing::RollbackThenPeriod,
            Thing::TurnedDownSlowStart,
            Thing::TurnedDownWindow,
        ],
    },
    Profile {
        name: "pto_storms",
        says: "dead lines, timeouts in a row and their probes",
        knobs: Knobs {
            loss: 150,
            outage: 80,
            outage_round_trips: (3, 40),
            odd_status: 20,
            early_timeout: 15,
            ..CALM
        },
        reaches: &[
            Thing::PtoTimeout,
            Thing::PtoInARow,
            Thing::PtoHandle,
            Thing::ProbeTaken,
            Thing::MinimumWindow,
            Thing::TooManyLost,
            Thing::EarlyTimeout,
        ],
    },
    Profile {
        name: "size_changes",
        says: "datagram sizes that change early and late",
        knobs: Knobs {
            loss: 10,
            size_change: 40,
            sizes: (1_000, 9_000),
            ..CALM
        },
        reaches: &[Thing::SizeMovesWindow, Thing::SizeKeepsWindow],
    },
    Profile {
        name: "probes",
        says: "PMTUD probes, lost and acked",
        knobs: Knobs {
            loss: 15,
            pmtud_probe: 60,
            ..CALM
        },
        reaches: &[Thing::PmtudSent, Thing::PmtudLost, Thing::PmtudAcked],
    },
    Profile {
        name: "not_in_flight",
        says: "packets that elicit nothing or aren't in flight",
        knobs: Knobs {
            loss: 20,
            not_eliciting: 300,
            not_in_flight: 300,
            quiet_run: 15,
            sizes: (30, 1_200),
            ..CALM
        },
        reaches: &[
            Thing::NotEliciting,
            Thing::NotInFlight,
            Thing::NotInFlightLost,
            Thing::RunElicitsAck,
        ],
    },
    Profile {
        name: "many_ranges",
        says: "acks of up to 64 ranges",
        knobs: Knobs {
            number_gap: 450,
            ack_every: (1, 60),
            ack_hold: (5 * MILLI, 60 * MILLI),
            ranges: (40, 64),
            ack_loss: 200,
            reorder: 20,
            reorder_by: (50, 500),
            ..CALM
        },
        reaches: &[Thing::Over32Ranges, Thing::Exactly64Ranges],
    },
    Profile {
        name: "long_ack_delays",
        says: "acks that come late, with true and false delays",
        knobs: Knobs {
            loss: 10,
            ack_every: (2, 40),
            ack_hold: (20 * MILLI, 300 * MILLI),
            false_delay: 300,
            false_delays: (0, 2_000_000),
            odd_status: 100,
            ..CALM
        },
        reaches: &[
            Thing::DelayCapped,
            Thing::DelayTaken,
            Thing::DelayImplausible,
        ],
    },
    Profile {
        name: "tiny_round_trips",
        says: "round trips from a tenth of a microsecond",
        knobs: Knobs {
            round_trip: (100, 200 * MICRO),
            ack_hold: (0, 10 * MICRO),
            loss: 15,
            reorder: 20,
            reorder_by: (10, 900),
            jitter: 200,
            ..CALM
        },
        reaches: &[Thing::GranularDelay, Thing::Friendly],
    },
    Profile {
        name: "huge_round_trips",
        says: "round trips of seconds",
        knobs: Knobs {
            round_trip: (SECOND, 8 * SECOND),
            loss: 8,
            pause: (5, 30),
            ..CALM
        },
        reaches: &[Thing::HugeSample, Thing::Convex],
    },
    Profile {
        name: "bursts",
        says: "bursts at one moment with pauses between",
        knobs: Knobs {
            loss: 2,
            burst: (16, 280),
            pause: (300, 2_500),
            sizes: (40, 160),
            most_records: 256,
            ..CALM
        },
        reaches: &[Thing::Burst, Thing::AckedAppLimited, Thing::FullRing],
    },
];

pub fn named(name: &str) -> Option<&'static Profile> {
    PROFILES.iter().find(|p| p.name == name)
}
