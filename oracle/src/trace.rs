//! 01's trace format: bytes to events and back (01 'Replay and the host').

use crate::event::{Ack, Event, Flags, Packet, Status};

/// A longer trace prints only `too long`.
pub const LONGEST_TRACE: usize = 65_536;

/// An unknown kind or a short body, at the offset of its kind byte.
#[derive(Clone, Copy, Debug, PartialEq, Eq)]
pub struct BadAt(pub usize);

/// Reads events from a trace, one after the other.
pub struct Reader<'a> {
    bytes: &'a [u8],
    at: usize,
}

impl<'a> Reader<'a> {
    pub fn new(bytes: &'a [u8]) -> Self {
        Reader { bytes, at: 0 }
    }

    /// The offset of the next kind byte.
    pub fn offset(&self) -> usize {
        self.at
    }

    fn body(&mut self, kind: u8) -> Option<Event> {
        Some(match kind {
            1 => Event::Sent {
                now: self.number(8)?,
                space: self.byte()?,
                packet: Packet {
                    number: self.number(8)?,
                    size: self.number(2)?,
                    flags: Flags(self.byte()?),
                    handle: self.number(8)?,
                },
                status: Status(self.byte()?),
            },
            2 => Event::Range {
                start: self.number(8)?,
                end: self.number(8)?,
            },
            3 => self.ack()?,
            4 => Event::Timeout {
                now: self.number(8)?,
                status: Status(self.byte()?),
            },
            5 => Event::Discard {
                now: self.number(8)?,
                space: self.byte()?,
                status: Status(self.byte()?),
            },
            6 => Event::Size(self.number(2)?),
            7 => Event::TakeAcked(self.byte()?),
            8 => Event::TakeLost(self.byte()?),
            9 => Event::Ping(self.byte()?),
            _ => return None,
        })
    }

    fn ack(&mut self) -> Option<Event> {
        let now = self.number(8)?;
        let space = self.byte()?;
        let delay_micros = self.number(8)?;
        let status = Status(self.byte()?);
        let ack = Ack {
            space,
            delay_micros,
            limited: self.byte()? & 1 != 0,
            skipped: self.number(8)?,
        };
        Some(Event::Ack { now, ack, status })
    }

    fn byte(&mut self) -> Option<u8> {
        let byte = self.bytes.get(self.at).copied()?;
        self.at += 1;
        Some(byte)
    }

    fn number(&mut self, width: usize) -> Option<u64> {
        let body = self.bytes.get(self.at..self.at + width)?;
        self.at += width;
        Some(body.iter().fold(0, |n, b| n << 8 | u64::from(*b)))
    }
}

impl Iterator for Reader<'_> {
    type Item = Result<Event, BadAt>;

    fn next(&mut self) -> Option<Self::Item> {
        let start = self.at;
        let kind = self.byte()?;
        Some(self.body(kind).ok_or(BadAt(start)))
    }
}

/// Adds one event's bytes to a trace.
pub fn write_event(trace: &mut Vec<u8>, event: &Event) {
    trace.push(event.kind());
    if let Some(now) = event.now() {
        trace.extend(now.to_be_bytes());
    }
    match event {
        Event::Sent {
            space,
            packet,
            status,
            ..
        } => {
            trace.push(*space);
            trace.extend(packet.number.to_be_bytes());
            trace.extend((packet.size as u16).to_be_bytes());
            trace.push(packet.flags.0);
            trace.extend(packet.handle.to_be_bytes());
            trace.push(status.0);
        }
        Event::Range { start, end } => {
            trace.extend(start.to_be_bytes());
            trace.extend(end.to_be_bytes());
        }
        Event::Ack { ack, status, .. } => {
            trace.push(ack.space);
            trace.extend(ack.delay_micros.to_be_bytes());
            trace.extend([status.0, u8::from(ack.limited)]);
            trace.extend(ack.skipped.to_be_bytes());
        }
        Event::Timeout { status, .. } => trace.push(status.0),
        Event::Discard { space, status, .. } => trace.extend([*space, status.0]),
        Event::Size(size) => trace.extend((*size as u16).to_be_bytes()),
        Event::TakeAcked(space) | Event::TakeLost(space) | Event::Ping(space) => {
            trace.push(*space);
        }
    }
}

pub fn written(events: &[Event]) -> Vec<u8> {
    let mut trace = Vec::new();
    events.iter().for_each(|e| write_event(&mut trace, e));
    trace
}

/// The ranges held for the next ack; a 66th is dropped.
#[derive(Clone, Debug, Default)]
pub struct HeldRanges {
    words: Vec<u64>,
}

impl HeldRanges {
    const MOST: usize = 65;

    pub fn hold(&mut self, start: u64, end: u64) {
        if self.words.len() < 2 * Self::MOST {
            self.words.extend([start, end]);
        }
    }

    /// Starts and ends in turn.
    pub fn words(&self) -> &[u64] {
        &self.words
    }

    pub fn empty(&mut self) {
        self.words.clear();
    }
}

#[cfg(test)]
mod tests {
    use super::*;

    /// Laid out by hand from 01's text, not by our writer.
    #[test]
    fn sent_body_is_read_in_the_order_of_01() {
        let bytes = [
            1, 0, 0, 0, 0, 0, 0, 1, 2, 2, 0, 0, 0, 0, 0, 0, 0, 9, 4, 176, 7, 0, 0, 0, 0, 0, 0, 0,
            5, 6,
        ];
        let wanted = Event::Sent {
            now: 258,
            space: 2,
            packet: Packet {
                number: 9,
                size: 1200,
                flags: Flags(7),
                handle: 5,
            },
            status: Status(6),
        };
        assert_eq!(Reader::new(&bytes).next(), Some(Ok(wanted.clone())));
        assert_eq!(written(&[wanted]), bytes);
    }

    #[test]
    fn ack_body_is_read_in_the_order_of_01() {
        let mut bytes = vec![3, 0, 0, 0, 0, 0, 0, 0, 8, 1];
        bytes.extend([0, 0, 0, 0, 0, 0, 0, 25, 4, 3]);
        bytes.extend([255; 8]);
        let wanted = Event::Ack {
            now: 8,
            ack: Ack {
                space: 1,
                delay_micros: 25,
                limited: true,
                skipped: u64::MAX,
            },
            status: Status(4),
        };
        assert_eq!(Reader::new(&bytes).next(), Some(Ok(wanted)));
    }

    #[test]
    fn unknown_kind_and_short_body_are_bad_at_their_kind_byte() {
        let mut reader = Reader::new(&[7, 2, 10, 1]);
        assert_eq!(reader.next(), Some(Ok(Event::TakeAcked(2))));
        assert_eq!(reader.next(), Some(Err(BadAt(2))));
        assert_eq!(Reader::new(&[6, 4]).next(), Some(Err(BadAt(0))));
    }

    #[test]
    fn sixty_sixth_range_is_dropped() {
        let mut held = HeldRanges::default();
        (0..66).for_each(|n| held.hold(2 * n, 2 * n + 1));
        assert_eq!(held.words().len(), 130);
        assert_eq!(held.words().last(), Some(&129));
    }
}
