//! The path: how long a crossing takes, what it loses and when it is dead.

use crate::generate::profile::Knobs;
use crate::generate::random::Random;

#[derive(Clone, Copy)]
pub enum Way {
    There,
    Back,
}

/// What befalls one packet or ack on its way.
pub struct Crossing {
    pub way: Way,
    /// Chance of being lost, in a thousand.
    pub loss: u64,
    /// How long it is held back while others go on, in thousandths of a round trip.
    pub held_back: u64,
}

pub struct Path {
    round_trip: u64,
    jitter: u64,
    /// On each way, when the last thing arrives that keeps the order.
    last_arrival: [u64; 2],
    dead_until: u64,
    next_outage_check: u64,
}

impl Path {
    pub fn new(knobs: &Knobs, start: u64, random: &mut Random) -> Self {
        let round_trip = random.between(knobs.round_trip);
        Path {
            round_trip,
            jitter: knobs.jitter,
            last_arrival: [0; 2],
            dead_until: 0,
            next_outage_check: start + round_trip,
        }
    }

    pub fn round_trip(&self) -> u64 {
        self.round_trip
    }

    /// That many thousandths of a round trip, not rounded to a multiple of anything.
    pub fn thousandths(&self, count: u64, random: &mut Random) -> u64 {
        self.round_trip * count / 1_000 + random.below(64)
    }

    /// When it arrives, or None if it is lost.
    pub fn cross(&mut self, now: u64, crossing: &Crossing, random: &mut Random) -> Option<u64> {
        let jitter = random.below(self.jitter + 1);
        let takes = self.round_trip / 2 + self.thousandths(jitter, random);
        let lost = random.in_thousand(crossing.loss) || now < self.dead_until;
        let last = &mut self.last_arrival[crossing.way as usize];
        *last = (*last).max(now + takes);
        let in_order = *last;
        let held = match crossing.held_back {
            0 => 0,
            count => self.thousandths(count, random),
        };
        (!lost).then_some(in_order + held)
    }

    /// Once a round trip the line may go dead for some of them.
    pub fn maybe_go_dead(&mut self, now: u64, knobs: &Knobs, random: &mut Random) {
        if now < self.next_outage_check {
            return;
        }
        self.next_outage_check = now + self.round_trip;
        if random.in_thousand(knobs.outage) {
            let lasts = random.between(knobs.outage_round_trips);
            self.dead_until = now + lasts * self.round_trip;
        }
    }
}
