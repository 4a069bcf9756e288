//! Where a trace leaves 01's domain, on both sides of each clause.

use oracle::domain::{judged, Why, DOMAIN_SPAN};
use oracle::event::{Ack, Event, Flags, Packet, Status, NONE_SKIPPED};
use oracle::front::Refusal;
use oracle::root::Root;
use oracle::trace::written;

const MILLI: u64 = 1_000_000;

fn sent_flagged(now: u64, number: u64, flags: u8) -> Event {
    Event::Sent {
        now,
        space: 2,
        packet: Packet {
            number,
            size: 1_200,
            flags: Flags(flags),
            handle: 0,
        },
        status: Status::ALL,
    }
}

fn sent(now: u64, number: u64) -> Event {
    sent_flagged(now, number, 7)
}

fn acked(now: u64, start: u64, end: u64) -> [Event; 2] {
    let ack = Ack {
        space: 2,
        delay_micros: 0,
        limited: false,
        skipped: NONE_SKIPPED,
    };
    let status = Status::ALL;
    [Event::Range { start, end }, Event::Ack { now, ack, status }]
}

fn why(events: &[Event]) -> Result<u64, (u64, Why)> {
    Root::Exact.choose().unwrap();
    judged(&written(events)).map_err(|left| (left.event, left.why))
}

#[test]
fn sample_on_a_half_leaves_and_one_beside_it_stays() {
    let with_sample = |rtt| [&[sent(0, 0)][..], &acked(rtt, 0, 1)].concat();
    let larger = 100_000_004;
    let half = Err((2, Why::HalfCase { larger }));
    assert_eq!(why(&with_sample(larger)), half);
    assert_eq!(why(&with_sample(larger - 1)), Ok(2));
    assert_eq!(why(&with_sample(larger + 1)), Ok(2));
}

/// 100,000,002 × 9/8 is no half, × 5/4 is one.
#[test]
fn sample_that_was_fine_becomes_a_half_under_five_quarters() {
    let rtt = 100_000_002;
    let mut events: Vec<Event> = (0..4).map(|n| sent(0, n)).collect();
    events.extend(acked(rtt, 3, 4));
    assert_eq!(why(&events), Ok(5));
    // Number 0 was lost; acked now, together with 1, it was lost for nothing.
    events.extend(acked(rtt + 1, 0, 2));
    assert_eq!(why(&events), Err((6, Why::HalfCase { larger: rtt })));
}

fn one_loss() -> Vec<Event> {
    let mut events: Vec<Event> = (0..4).map(|n| sent(0, n)).collect();
    events.extend(acked(100 * MILLI, 3, 4));
    events.extend(acked(101 * MILLI, 1, 3));
    events
}

#[test]
fn sending_in_flight_with_nothing_in_flight_leaves_after_a_period() {
    let with = |last| [one_loss(), vec![last]].concat();
    let in_flight = with(sent(102 * MILLI, 4));
    assert_eq!(why(&in_flight), Err((7, Why::SentWithNothingInFlight)));
    let not_in_flight = with(sent_flagged(102 * MILLI, 4, 1));
    assert_eq!(why(&not_in_flight), Ok(7));
}

#[test]
fn sending_with_nothing_in_flight_stays_before_any_period() {
    let mut events = vec![sent(0, 0)];
    events.extend(acked(100 * MILLI, 0, 1));
    events.push(sent(200 * MILLI, 1));
    assert_eq!(why(&events), Ok(3));
}

#[test]
fn event_300_s_after_the_first_sample_stays_and_one_later_leaves() {
    let first_sample = 100 * MILLI;
    let with_last = |now| {
        let mut events = vec![sent(0, 0)];
        events.extend(acked(first_sample, 0, 1));
        events.push(sent(now, 1));
        why(&events)
    };
    assert_eq!(with_last(first_sample + DOMAIN_SPAN), Ok(3));
    let far = Err((3, Why::FarFromFirstSample));
    assert_eq!(with_last(first_sample + DOMAIN_SPAN + 1), far);
}

#[test]
fn first_sample_more_than_300_s_after_the_first_event_leaves() {
    let with_sample = |now| why(&[&[sent(0, 0)][..], &acked(now, 0, 1)].concat());
    assert_eq!(with_sample(DOMAIN_SPAN), Ok(2));
    let far = Err((2, Why::FarFromFirstSample));
    assert_eq!(with_sample(DOMAIN_SPAN + 1), far);
}

#[test]
fn refusal_leaves() {
    let events = [sent(0, 0), sent(0, 0)];
    assert_eq!(why(&events), Err((2, Why::Refused(Refusal::Number))));
}
