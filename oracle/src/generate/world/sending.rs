//! What goes out: bursts, probes and single packets.

use super::path::{Crossing, Way};
use super::{Happening, World};
use crate::event::{Event, Flags, Packet};
use crate::front::MOST_RECORDS;

impl World {
    pub(super) fn wake_up(&mut self) {
        let soon = self.now + 1 + self.random.below(1 + self.path.round_trip() / 100);
        // A pause of the application goes on.
        if !self.draining {
            self.wake = self.wake.or(Some(soon));
        }
    }

    pub(super) fn send_some(&mut self) {
        if self.random.in_thousand(self.knobs.early_timeout) {
            return self.time_out();
        }
        for _ in 0..self.random.between(self.knobs.burst) {
            let size = self.random.between(self.knobs.sizes);
            let space = self.handshake.draw_sending_space(&mut self.random);
            let state = self.sender.snapshot();
            let records = state.spaces[usize::from(space)].records;
            if state.available < size || records >= self.knobs.most_records {
                self.window_closed |= state.available < size;
                self.wake = None;
                return;
            }
            let flags = self.draw_flags();
            let size = if flags.probe() {
                1_500 + 7 * size
            } else {
                size
            };
            if !self.send_sized(space, flags, size) {
                return;
            }
        }
        let early = if self.sender.event_count() < 20 { 8 } else { 1 };
        if self.random.in_thousand(self.knobs.size_change * early) {
            let size = self.draw_datagram_size();
            self.must(Event::Size(size));
        }
        let pause = self.random.between(self.knobs.pause);
        self.wake = Some(self.now + self.path.thousandths(pause, &mut self.random));
    }

    pub(super) fn send_probes(&mut self) {
        for space in [0, 1, 2] {
            for _ in 0..self.sender.snapshot().spaces[usize::from(space)].probes {
                if !self.send_packet(space, Flags(7)) {
                    return;
                }
                self.must(Event::Ping(space));
            }
        }
    }

    pub(super) fn send_packet(&mut self, space: u8, flags: Flags) -> bool {
        let size = self.random.between(self.knobs.sizes);
        self.send_sized(space, flags, size)
    }

    /// False if it could not be sent: the ring or the trace is full.
    fn send_sized(&mut self, space: u8, flags: Flags, size: u64) -> bool {
        let at = usize::from(space);
        if self.sender.snapshot().spaces[at].records >= MOST_RECORDS as u64 {
            return false;
        }
        if self.random.in_thousand(self.knobs.number_gap) {
            self.skipped[at] = self.next_number[at];
            self.next_number[at] += 1;
        }
        let number = self.next_number[at];
        let handle = self.draw_handle();
        let packet = Packet {
            number,
            size,
            flags,
            handle,
        };
        let status = self.status();
        self.must(Event::Sent {
            now: self.now,
            space,
            packet,
            status,
        });
        self.window_closed &= !flags.in_flight();
        self.next_number[at] += 1;
        self.put_on_the_path(space, &packet);
        !self.finished
    }

    fn put_on_the_path(&mut self, space: u8, packet: &Packet) {
        let held_back = if self.random.in_thousand(self.knobs.reorder) {
            self.random.between(self.knobs.reorder_by)
        } else {
            0
        };
        let too_large = packet.flags.probe();
        let crossing = Crossing {
            way: Way::There,
            loss: if too_large { 500 } else { self.knobs.loss },
            held_back,
        };
        if let Some(at) = self.path.cross(self.now, &crossing, &mut self.random) {
            let arrives = Happening::Arrives {
                space,
                number: packet.number,
                eliciting: packet.flags.eliciting(),
            };
            self.schedule(at, arrives);
        }
    }

    fn draw_flags(&mut self) -> Flags {
        let mut flags = Flags::ELICITING | Flags::IN_FLIGHT | Flags::DATA;
        if self.random.in_thousand(self.knobs.pmtud_probe) {
            return Flags(Flags::ELICITING | Flags::IN_FLIGHT | Flags::PROBE);
        }
        if self.random.in_thousand(self.knobs.quiet_run) {
            self.quiet_left = self.random.between((20, 30));
        }
        let quiet = self.quiet_left > 0 || self.random.in_thousand(self.knobs.not_eliciting);
        self.quiet_left = self.quiet_left.saturating_sub(1);
        if quiet {
            flags &= !(Flags::ELICITING | Flags::DATA);
        }
        if self.random.in_thousand(self.knobs.not_in_flight) {
            flags &= !Flags::IN_FLIGHT;
        }
        if self.random.in_thousand(50) {
            flags &= !Flags::DATA;
        }
        Flags(flags)
    }

    fn draw_datagram_size(&mut self) -> u64 {
        let sizes = [1_200, 1_350, 1_500, 2_400, 9_000, 65_527];
        sizes[self.random.below(sizes.len() as u64) as usize]
    }

    fn draw_handle(&mut self) -> u64 {
        if self.random.in_thousand(self.knobs.with_handle) {
            self.random.any().max(1)
        } else {
            0
        }
    }
}
