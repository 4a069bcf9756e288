//! Where a trace leaves 01's domain of equality, and why.

use std::fmt;

use crate::connection::Outcome;
use crate::event::Event;
use crate::front::Refusal;
use crate::replay::Player;
use crate::snapshot::{RttSnapshot, Snapshot};
use crate::trace::{BadAt, Reader, LONGEST_TRACE};

/// All events lie within this span of the first RTT sample.
pub const DOMAIN_SPAN: u64 = 300_000_000_000;

#[derive(Clone, Copy, Debug, PartialEq, Eq)]
pub enum Why {
    Refused(Refusal),
    SentWithNothingInFlight,
    HalfCase { larger: u64 },
    FarFromFirstSample,
    BadAt(usize),
    TooLong,
}

impl fmt::Display for Why {
    fn fmt(&self, f: &mut fmt::Formatter) -> fmt::Result {
        match self {
            Why::Refused(refusal) => write!(f, "refused with {}", refusal.number()),
            Why::SentWithNothingInFlight => write!(
                f,
                "an in-flight packet was sent with nothing in flight after a recovery start"
            ),
            Why::HalfCase { larger } => {
                write!(
                    f,
                    "the loss delay of {larger} ns falls on half a nanosecond"
                )
            }
            Why::FarFromFirstSample => {
                write!(f, "an event lies more than 300 s from the first RTT sample")
            }
            Why::BadAt(offset) => write!(f, "bad at {offset}"),
            Why::TooLong => write!(f, "too long"),
        }
    }
}

/// Whether max(latest, smoothed) times the time threshold falls on a half.
///
/// The threshold is 9/8, or 5/4 after a spurious loss.
pub fn is_half_case(rtt: &RttSnapshot, time_threshold: u64) -> bool {
    let larger = u128::from(rtt.larger());
    if time_threshold == 1.125f64.to_bits() {
        larger * 9 % 8 == 4
    } else {
        larger * 5 % 4 == 2
    }
}

/// Judges one event after the other.
#[derive(Clone, Default)]
pub struct Judge {
    first_now: Option<u64>,
    first_sample: Option<u64>,
}

impl Judge {
    /// Why this event leaves the domain, if it does.
    pub fn why_left(
        &mut self,
        event: &Event,
        outcome: &Outcome,
        before: &Snapshot,
        after: &Snapshot,
    ) -> Option<Why> {
        if let Err(refusal) = outcome {
            return Some(Why::Refused(*refusal));
        }
        if self.is_far(event, after) {
            return Some(Why::FarFromFirstSample);
        }
        if let Event::Sent { packet, .. } = event {
            let idle = before.in_flight == 0 && before.recovery_start.is_some();
            if idle && packet.flags.in_flight() {
                return Some(Why::SentWithNothingInFlight);
            }
        }
        let detected = detects_losses(event, before, after);
        let larger = after.rtt.larger();
        (detected && is_half_case(&after.rtt, after.time_threshold))
            .then_some(Why::HalfCase { larger })
    }

    fn is_far(&mut self, event: &Event, after: &Snapshot) -> bool {
        let Some(now) = event.now() else {
            return false;
        };
        let first_now = *self.first_now.get_or_insert(now);
        if after.rtt.has_sample && self.first_sample.is_none() {
            self.first_sample = Some(now);
            return now - first_now > DOMAIN_SPAN;
        }
        self.first_sample
            .is_some_and(|first| now - first > DOMAIN_SPAN)
    }
}

/// An ack detects losses if anything is newly acked, a timeout if a loss time stood.
fn detects_losses(event: &Event, before: &Snapshot, after: &Snapshot) -> bool {
    match event {
        Event::Ack { ack, .. } => {
            let space = usize::from(ack.space);
            before.spaces[space].outstanding != after.spaces[space].outstanding
        }
        Event::Timeout { .. } => before.pto_count == after.pto_count,
        _ => false,
    }
}

/// A place in a trace: its event counted from 1, ranges apart, and its offset.
#[derive(Clone, Copy, Debug, PartialEq, Eq)]
pub struct Left {
    pub event: u64,
    pub offset: usize,
    pub why: Why,
}

impl fmt::Display for Left {
    fn fmt(&self, f: &mut fmt::Formatter) -> fmt::Result {
        let Left { event, offset, why } = self;
        write!(
            f,
            "left the domain at event {event}, offset {offset}: {why}"
        )
    }
}

/// Where a trace first leaves the domain; else the count of its events.
pub fn judged(trace: &[u8]) -> Result<u64, Left> {
    let left = |event, offset, why| Left { event, offset, why };
    if trace.len() > LONGEST_TRACE {
        return Err(left(0, 0, Why::TooLong));
    }
    let mut player = Player::with_defaults();
    let mut judge = Judge::default();
    let mut reader = Reader::new(trace);
    let mut count = 0;
    loop {
        let offset = reader.offset();
        let event = match reader.next() {
            None => return Ok(count),
            Some(Err(BadAt(at))) => return Err(left(count + 1, offset, Why::BadAt(at))),
            Some(Ok(event)) => event,
        };
        let before = player.oracle.snapshot();
        let Some(outcome) = player.play(&event) else {
            continue;
        };
        count += 1;
        let after = player.oracle.snapshot();
        if let Some(why) = judge.why_left(&event, &outcome, &before, &after) {
            return Err(left(count, offset, why));
        }
    }
}
