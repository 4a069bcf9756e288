//! A simulated clock around the real recovery: what happens next, and lets it happen.

mod path;
mod receiving;
mod sending;

use std::collections::BTreeMap;

use super::handshake::Handshake;
use super::peer::Received;
use super::profile::Knobs;
use super::random::Random;
use super::sender::Sender;
use crate::connection::Oracle;
use crate::event::{Event, Status, NONE_SKIPPED};
use path::Path;

/// A trace ends this long after its start, well inside 01's 300 seconds.
const LONGEST_RUN: u64 = 280_000_000_000;
/// How many events may follow the last packet.
const DRAINING_EVENTS: usize = 64;

/// What is under way on the path.
enum Happening {
    Arrives {
        space: u8,
        number: u64,
        eliciting: bool,
    },
    AckDue {
        space: u8,
    },
    AckArrives {
        space: u8,
        ranges: Vec<(u64, u64)>,
        delay_micros: u64,
    },
    Discard {
        space: u8,
    },
}

pub struct World {
    knobs: Knobs,
    random: Random,
    sender: Sender,
    path: Path,
    now: u64,
    start: u64,
    under_way: BTreeMap<(u64, u64), Happening>,
    happenings: u64,
    received: [Received; 3],
    next_number: [u64; 3],
    skipped: [u64; 3],
    handshake: Handshake,
    /// When the sender next looks whether it may send.
    wake: Option<u64>,
    /// The window left no room for the next packet, so the application isn't the limit.
    window_closed: bool,
    /// Packets of a run that elicits nothing, still to be sent.
    quiet_left: u64,
    finished: bool,
    draining: bool,
}

impl World {
    pub fn new(knobs: Knobs, oracle: Oracle, mut random: Random, most_bytes: usize) -> Self {
        // Half of the traces start at 0, where `now` is below the smoothed RTT.
        let late = random.below(1 << 51);
        let start = if random.in_thousand(500) { 0 } else { late };
        World {
            path: Path::new(&knobs, start, &mut random),
            sender: Sender::new(oracle, most_bytes, random.in_thousand(500)),
            now: start,
            start,
            under_way: BTreeMap::new(),
            happenings: 0,
            received: Default::default(),
            next_number: [(); 3].map(|()| first_number(&mut random)),
            skipped: [NONE_SKIPPED; 3],
            handshake: Handshake::new(knobs.handshake, &mut random),
            wake: Some(start),
            window_closed: false,
            quiet_left: 0,
            finished: false,
            draining: false,
            knobs,
            random,
        }
    }

    pub fn run(mut self, most_events: usize) -> Vec<Event> {
        while !self.finished && self.sender.event_count() < most_events {
            self.step();
        }
        self.drain();
        self.sender.into_events()
    }

    /// Nothing more is sent; what is still under way comes in.
    fn drain(&mut self) {
        self.draining = true;
        self.wake = None;
        self.sender.let_go_idle();
        let most_events = self.sender.event_count() + DRAINING_EVENTS;
        while !self.finished
            && !self.under_way.is_empty()
            && self.sender.event_count() < most_events
        {
            self.step();
        }
    }

    /// Goes to the earliest thing that is to happen, and lets it happen.
    fn step(&mut self) {
        let on_path = self.under_way.keys().next().map(|key| key.0);
        let timer = self.sender.timer();
        let Some(next) = [on_path, timer, self.wake].into_iter().flatten().min() else {
            self.finished = true;
            return;
        };
        self.now = self.now.max(next);
        if self.now - self.start > LONGEST_RUN {
            self.finished = true;
        } else if timer == Some(next) {
            self.time_out();
        } else if on_path == Some(next) {
            let (_, happening) = self.under_way.pop_first().expect("it was just seen");
            self.happen(happening);
        } else {
            self.send_some();
        }
        self.path
            .maybe_go_dead(self.now, &self.knobs, &mut self.random);
    }

    fn happen(&mut self, happening: Happening) {
        match happening {
            Happening::Arrives {
                space,
                number,
                eliciting,
            } => {
                self.arrive(space, number, eliciting);
            }
            Happening::AckDue { space } => self.acknowledge(space),
            Happening::AckArrives {
                space,
                ranges,
                delay_micros,
            } => {
                self.receive_ack(space, &ranges, delay_micros);
            }
            Happening::Discard { space } => self.discard(space),
        }
    }

    fn schedule(&mut self, at: u64, happening: Happening) {
        self.happenings += 1;
        self.under_way.insert((at, self.happenings), happening);
    }

    fn status(&mut self) -> Status {
        if self.random.in_thousand(self.knobs.odd_status) {
            Status(self.random.below(8) as u8)
        } else {
            self.handshake.status()
        }
    }

    /// Plays an event that can't leave the domain; a full trace ends the run.
    fn must(&mut self, event: Event) {
        if self.sender.play(&[event]).is_err() {
            self.finished = true;
        }
    }
}

/// Mostly small, now and then near the largest packet number.
fn first_number(random: &mut Random) -> u64 {
    let small = random.below(3);
    if random.in_thousand(200) {
        (1 << 62) - (1 << 24) + small
    } else {
        small
    }
}
