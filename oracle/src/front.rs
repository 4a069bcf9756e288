//! The refusals of 01's table that can be read off an event's arguments.
//!
//! The Rust has none of them (but for the skipped number, which it finds too
//! late). First that applies, top down.

use std::ops::RangeInclusive;

use crate::event::{Ack, Packet, NONE_SKIPPED};
use crate::moment::LARGEST_TIME;

pub const SPACES: usize = 3;
pub const MOST_RECORDS: usize = 256;
pub const MOST_HANDLES: usize = 256;
pub const MOST_RANGES: usize = 64;
pub const DATAGRAM_SIZES: RangeInclusive<u64> = 1_200..=65_527;
const PACKET_SIZES: RangeInclusive<u64> = 1..=65_527;
const NUMBERS: u64 = 1 << 62;

/// 01's table; the discriminants are its numbers.
#[derive(Clone, Copy, Debug, PartialEq, Eq)]
#[repr(u8)]
pub enum Refusal {
    Clock = 1,
    Domain = 2,
    Number = 3,
    Ranges = 4,
    Skipped = 5,
    Full = 6,
    TooLarge = 7,
}

impl Refusal {
    pub fn number(self) -> u8 {
        self as u8
    }
}

fn refused_if(bad: bool, refusal: Refusal) -> Result<(), Refusal> {
    if bad {
        Err(refusal)
    } else {
        Ok(())
    }
}

/// What the front remembers of accepted events.
#[derive(Clone, Debug, Default, PartialEq, Eq)]
pub struct Front {
    last_now: u64,
    last_sent: [Option<u64>; SPACES],
}

impl Front {
    pub fn clock(&self, now: u64) -> Result<(), Refusal> {
        refused_if(now < self.last_now || now > LARGEST_TIME, Refusal::Clock)
    }

    pub fn space(space: u8) -> Result<(), Refusal> {
        refused_if(usize::from(space) >= SPACES, Refusal::Domain)
    }

    pub fn datagram_size(size: u64) -> Result<(), Refusal> {
        refused_if(!DATAGRAM_SIZES.contains(&size), Refusal::Domain)
    }

    pub fn sent(&self, now: u64, space: u8, packet: &Packet) -> Result<(), Refusal> {
        self.clock(now)?;
        Self::space(space)?;
        let outside = packet.number >= NUMBERS
            || !PACKET_SIZES.contains(&packet.size)
            || (packet.flags.probe() && !packet.flags.in_flight());
        refused_if(outside, Refusal::Domain)?;
        let last = self.last_sent[usize::from(space)];
        refused_if(last.is_some_and(|l| packet.number <= l), Refusal::Number)
    }

    /// `words` are starts and ends of ranges in turn.
    pub fn ack(&self, now: u64, ack: &Ack, words: &[u64]) -> Result<(), Refusal> {
        self.clock(now)?;
        Self::space(ack.space)?;
        let named = ack.skipped != NONE_SKIPPED;
        refused_if(named && ack.skipped >= NUMBERS, Refusal::Domain)?;
        refused_if(!well_formed(words), Refusal::Ranges)?;
        let mut ranges = words.chunks(2).map(|r| r[0]..r[1]);
        let holds = ranges.any(|range| range.contains(&ack.skipped));
        refused_if(named && holds, Refusal::Skipped)?;
        let delay = u128::from(ack.delay_micros) * 1_000;
        refused_if(delay > u128::from(LARGEST_TIME), Refusal::TooLarge)
    }

    pub fn accept_now(&mut self, now: u64) {
        self.last_now = now;
    }

    pub fn accept_number(&mut self, space: u8, number: u64) {
        self.last_sent[usize::from(space)] = Some(number);
    }

    pub fn last_now(&self) -> u64 {
        self.last_now
    }

    pub fn last_sent(&self, space: u8) -> Option<u64> {
        self.last_sent[usize::from(space)]
    }
}

/// Refusal 4, turned round, over the whole list.
fn well_formed(words: &[u64]) -> bool {
    let ranges: Vec<&[u64]> = words.chunks(2).collect();
    !words.is_empty()
        && words.len().is_multiple_of(2)
        && ranges.len() <= MOST_RANGES
        && ranges.iter().all(|r| r[0] < r[1] && r[1] <= NUMBERS)
        && ranges.windows(2).all(|two| two[0][1] < two[1][0])
}

#[cfg(test)]
mod tests {
    use super::*;
    use crate::event::Flags;

    fn packet(number: u64, size: u64, flags: u8) -> Packet {
        Packet {
            number,
            size,
            flags: Flags(flags),
            handle: 0,
        }
    }

    fn ack(skipped: u64, delay_micros: u64) -> Ack {
        Ack {
            space: 2,
            delay_micros,
            limited: false,
            skipped,
        }
    }

    #[test]
    fn clock_is_refused_going_back_and_past_the_largest_time() {
        let mut front = Front::default();
        front.accept_now(10);
        assert_eq!(front.clock(9), Err(Refusal::Clock));
        assert_eq!(front.clock(10), Ok(()));
        assert_eq!(front.clock(LARGEST_TIME), Ok(()));
        assert_eq!(front.clock(LARGEST_TIME + 1), Err(Refusal::Clock));
    }

    #[test]
    fn sent_arguments_are_refused_outside_their_ranges() {
        let front = Front::default();
        let judged = |p: Packet| front.sent(0, 2, &p);
        assert_eq!(judged(packet(NUMBERS - 1, 65_527, 3)), Ok(()));
        assert_eq!(judged(packet(NUMBERS, 1, 3)), Err(Refusal::Domain));
        assert_eq!(judged(packet(0, 0, 3)), Err(Refusal::Domain));
        assert_eq!(judged(packet(0, 65_528, 3)), Err(Refusal::Domain));
        assert_eq!(judged(packet(0, 1, 9)), Err(Refusal::Domain));
        assert_eq!(front.sent(0, 3, &packet(0, 1, 3)), Err(Refusal::Domain));
    }

    #[test]
    fn ranges_are_refused_as_a_whole_before_the_skipped_number() {
        let front = Front::default();
        let judged = |words: &[u64]| front.ack(0, &ack(3, 0), words);
        assert_eq!(judged(&[]), Err(Refusal::Ranges));
        assert_eq!(judged(&[1]), Err(Refusal::Ranges));
        assert_eq!(judged(&[3, 4, 6, 6]), Err(Refusal::Ranges));
        assert_eq!(judged(&[3, 4, 4, 6]), Err(Refusal::Ranges));
        assert_eq!(judged(&[3, 4, 5, 6]), Err(Refusal::Skipped));
        assert_eq!(judged(&[2, 3, 4, NUMBERS]), Ok(()));
        assert_eq!(judged(&[4, NUMBERS + 1]), Err(Refusal::Ranges));
    }

    #[test]
    fn delay_passes_the_largest_time_after_the_skipped_number() {
        let front = Front::default();
        let most = LARGEST_TIME / 1_000;
        let range = [0, 1];
        assert_eq!(front.ack(0, &ack(NONE_SKIPPED, most), &range), Ok(()));
        let over = front.ack(0, &ack(NONE_SKIPPED, most + 1), &range);
        assert_eq!(over, Err(Refusal::TooLarge));
        let both = front.ack(0, &ack(0, most + 1), &range);
        assert_eq!(both, Err(Refusal::Skipped));
        let beyond = front.ack(0, &ack(NUMBERS, 0), &range);
        assert_eq!(beyond, Err(Refusal::Domain));
    }
}
