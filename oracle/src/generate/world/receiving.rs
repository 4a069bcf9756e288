//! What comes in: packets at the peer, acks, timeouts and discards at the sender.

use super::path::{Crossing, Way};
use super::{Happening, World};
use crate::event::{Ack, Event, Flags};
use crate::generate::sender::Unfit;

/// How many moments are tried for an ack before it counts as lost.
const MOMENTS_TRIED: u64 = 64;
/// A queue longer than this is emptied, so that it never passes 256 handles.
const LONG_QUEUE: u64 = 60;

impl World {
    pub(super) fn arrive(&mut self, space: u8, number: u64, eliciting: bool) {
        let now = self.now;
        let received = &mut self.received[usize::from(space)];
        received.take_in(number, now);
        if !eliciting {
            return;
        }
        received.unanswered += 1;
        let unanswered = received.unanswered;
        if unanswered >= self.random.between(self.knobs.ack_every) {
            self.acknowledge(space);
        } else if unanswered == 1 {
            let hold = self.random.between(self.knobs.ack_hold);
            self.schedule(now + hold, Happening::AckDue { space });
        }
    }

    pub(super) fn acknowledge(&mut self, space: u8) {
        let most = self.random.between(self.knobs.ranges) as usize;
        let received = &mut self.received[usize::from(space)];
        if received.unanswered == 0 {
            return;
        }
        received.unanswered = 0;
        let mut ranges = received.newest(most);
        let mut delay_micros = (self.now - received.largest_at) / 1_000;
        if self.random.in_thousand(500) {
            // An old range whose beginning the peer no longer reports.
            let first = &mut ranges[0];
            first.0 = first.0.max(first.1.saturating_sub(300));
        }
        if self.random.in_thousand(self.knobs.false_delay) {
            delay_micros = self.random.between(self.knobs.false_delays);
        }
        let crossing = Crossing {
            way: Way::Back,
            loss: self.knobs.ack_loss,
            held_back: 0,
        };
        if let Some(at) = self.path.cross(self.now, &crossing, &mut self.random) {
            self.schedule(
                at,
                Happening::AckArrives {
                    space,
                    ranges,
                    delay_micros,
                },
            );
        }
    }

    pub(super) fn receive_ack(&mut self, space: u8, ranges: &[(u64, u64)], delay_micros: u64) {
        self.empty_long_queues();
        let status = self.status();
        let held = ranges
            .iter()
            .map(|&(start, end)| Event::Range { start, end });
        let group: Vec<Event> = held.collect();
        let accepted = self.at_some_moment(|now, limited, skipped| {
            let ack = Ack {
                space,
                delay_micros,
                limited,
                skipped: skipped[usize::from(space)],
            };
            let ack = Event::Ack { now, ack, status };
            group.iter().cloned().chain([ack]).collect()
        });
        if !accepted {
            return;
        }
        self.take_some_handles();
        if let Some(discarded) = self.handshake.acked(space, &mut self.random) {
            let soon = self.random.below(2 * self.path.round_trip());
            self.schedule(self.now + soon, Happening::Discard { space: discarded });
        }
        self.wake_up();
    }

    /// Plays a group at the next moment that keeps the trace in the domain.
    fn at_some_moment(&mut self, group: impl Fn(u64, bool, &[u64; 3]) -> Vec<Event>) -> bool {
        for _ in 0..MOMENTS_TRIED {
            // The Rust sets its flag with each send in flight; the crate clears it
            // where the window leaves no room to send.
            let limited = self.sender.snapshot().app_limited && !self.window_closed;
            match self.sender.play(&group(self.now, limited, &self.skipped)) {
                Ok(()) => return true,
                Err(Unfit::Length) => {
                    self.finished = true;
                    return false;
                }
                Err(Unfit::Idle) => {
                    if !self.send_packet(self.handshake.sending_space(), Flags(7)) {
                        return false;
                    }
                }
                Err(Unfit::Domain) => self.now += 1,
            }
        }
        false
    }

    pub(super) fn time_out(&mut self) {
        if self.random.in_thousand(300) {
            let late = self.random.below(20);
            self.now += self.path.thousandths(late, &mut self.random);
        }
        let status = self.status();
        if !self.at_some_moment(|now, _, _| vec![Event::Timeout { now, status }]) {
            self.finished = true;
            return;
        }
        if !self.draining {
            self.send_probes();
        }
        self.wake_up();
    }

    pub(super) fn discard(&mut self, space: u8) {
        let status = self.status();
        if !self.at_some_moment(|now, _, _| vec![Event::Discard { now, space, status }]) {
            self.finished = true;
        }
        self.wake_up();
    }

    fn empty_long_queues(&mut self) {
        for space in [0, 1, 2] {
            let held = self.sender.snapshot().spaces[usize::from(space)];
            if held.acked_queue > LONG_QUEUE {
                (0..held.acked_queue).for_each(|_| self.must(Event::TakeAcked(space)));
            }
            let lost = held.lost_queue + held.pto_queue;
            if lost > LONG_QUEUE {
                (0..lost).for_each(|_| self.must(Event::TakeLost(space)));
            }
        }
    }

    fn take_some_handles(&mut self) {
        let space = self.handshake.sending_space();
        let held = self.sender.snapshot().spaces[usize::from(space)];
        if held.acked_queue > 0 || self.random.in_thousand(30) {
            (0..self.random.below(3)).for_each(|_| self.must(Event::TakeAcked(space)));
        }
        if held.lost_queue + held.pto_queue > 0 && self.random.in_thousand(500) {
            self.must(Event::TakeLost(space));
        }
    }
}
