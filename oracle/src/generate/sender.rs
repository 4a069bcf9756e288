//! Plays events on the real recovery and keeps only those that stay in the domain.

use crate::connection::Oracle;
use crate::domain::{is_half_case, Judge};
use crate::event::Event;
use crate::replay::Player;
use crate::snapshot::Snapshot;
use crate::trace;

/// Why a group of events was not kept.
#[derive(Clone, Copy, Debug, PartialEq, Eq)]
pub enum Unfit {
    /// It would leave the domain, or a loss delay would come to stand on a half.
    Domain,
    /// It would leave nothing in flight after a recovery start: nothing could be
    /// sent in flight from there on.
    Idle,
    /// The trace would become too long.
    Length,
}

pub struct Sender {
    player: Player,
    judge: Judge,
    events: Vec<Event>,
    bytes: usize,
    most_bytes: usize,
    /// Avoid halves under both time thresholds: a spurious loss changes the
    /// threshold without a new sample, and then no moment avoids the half.
    both_thresholds: bool,
    may_go_idle: bool,
}

impl Sender {
    pub fn new(oracle: Oracle, most_bytes: usize, both_thresholds: bool) -> Self {
        Sender {
            player: Player::new(oracle),
            judge: Judge::default(),
            events: Vec::new(),
            bytes: 0,
            most_bytes,
            both_thresholds,
            may_go_idle: false,
        }
    }

    pub fn snapshot(&self) -> Snapshot {
        self.player.oracle.snapshot()
    }

    pub fn timer(&self) -> Option<u64> {
        self.player.oracle.timer()
    }

    pub fn event_count(&self) -> usize {
        self.events.len()
    }

    pub fn into_events(self) -> Vec<Event> {
        self.events
    }

    /// Nothing more will be sent, so nothing need stay in flight.
    pub fn let_go_idle(&mut self) {
        self.may_go_idle = true;
    }

    /// Keeps the whole group, or nothing of it.
    pub fn play(&mut self, group: &[Event]) -> Result<(), Unfit> {
        let length = trace::written(group).len();
        if self.bytes + length > self.most_bytes {
            return Err(Unfit::Length);
        }
        let mut player = self.player.clone();
        let mut judge = self.judge.clone();
        for event in group {
            let before = player.oracle.snapshot();
            let Some(outcome) = player.play(event) else {
                continue;
            };
            let after = player.oracle.snapshot();
            let left = judge.why_left(event, &outcome, &before, &after);
            let near = self.both_thresholds && is_half_under_either_threshold(&after);
            if left.is_some() || near {
                return Err(Unfit::Domain);
            }
            let idle = after.in_flight == 0 && after.recovery_start.is_some();
            if idle && !self.may_go_idle {
                return Err(Unfit::Idle);
            }
        }
        (self.player, self.judge) = (player, judge);
        self.bytes += length;
        self.events.extend_from_slice(group);
        Ok(())
    }
}

fn is_half_under_either_threshold(after: &Snapshot) -> bool {
    let thresholds = [1.125f64, 1.25].map(f64::to_bits);
    thresholds.iter().any(|&t| is_half_case(&after.rtt, t))
}
