//! The refusals 6 and 7 that show only once an event has run: a queue past 256
//! handles, a time past 2^53 - 1.
//!
//! The Rust has no such limits. Where one is near, the event runs on the real
//! recovery, the states before and after are judged here, and a refused event is
//! taken back. Judged are the values that a trace within 01's 300 seconds can
//! bring past a limit: moments near it, a PTO multiplied often, an ack's delay.

use crate::event::{Ack, Status};
use crate::front::{Refusal, MOST_HANDLES};
use crate::moment::LARGEST_TIME;
use crate::settings::{Settings, NANOS_PER_MILLI};
use crate::snapshot::Snapshot;

/// So far below the limit that no sum within 300 seconds passes it.
const NEAR: u64 = 1 << 52;
/// With fewer doublings no PTO of a span within 300 seconds passes the limit.
const MANY_TIMEOUTS: u32 = 12;

/// Whether an event could pass the limit at all; else the copy is spared.
pub fn is_near(now: u64, delay_micros: u64, timeouts_in_a_row: u32) -> bool {
    now > NEAR || delay_micros > NEAR / 1_000 || timeouts_in_a_row >= MANY_TIMEOUTS
}

fn passes(value: u128) -> bool {
    value > u128::from(LARGEST_TIME)
}

fn refused_if(bad: bool, refusal: Refusal) -> Result<(), Refusal> {
    if bad {
        Err(refusal)
    } else {
        Ok(())
    }
}

fn full(queue: u64) -> Result<(), Refusal> {
    refused_if(queue > MOST_HANDLES as u64, Refusal::Full)
}

/// In the order in which the rules reach them. `sampled`: a sample after the first.
pub fn ack(
    before: &Snapshot,
    after: &Snapshot,
    settings: &Settings,
    now: u64,
    ack: &Ack,
    status: Status,
    sampled: bool,
) -> Result<(), Refusal> {
    let space = usize::from(ack.space);
    full(after.spaces[space].acked_queue)?;
    let mut delay = ack.delay_micros * 1_000;
    if status.completed() {
        delay = delay.min(settings.max_ack_delay);
    }
    let plausible = u128::from(after.rtt.min) + u128::from(delay);
    refused_if(sampled && passes(plausible), Refusal::TooLarge)?;
    full(after.spaces[space].lost_queue)?;
    let newly_acked = before.spaces[space].outstanding != after.spaces[space].outstanding;
    refused_if(newly_acked && loss_time_passes(after), Refusal::TooLarge)?;
    timer(newly_acked, after, settings, status, now)
}

pub fn timeout(
    before: &Snapshot,
    after: &Snapshot,
    settings: &Settings,
    now: u64,
    status: Status,
) -> Result<(), Refusal> {
    for space in &after.spaces {
        full(space.lost_queue.max(space.pto_queue))?;
    }
    refused_if(loss_time_passes(after), Refusal::TooLarge)?;
    let searched = !loss_time_stands(before) && before.in_flight > 0;
    let passed = searched && pto_passes(before, settings, status, now);
    refused_if(passed, Refusal::TooLarge)?;
    timer(true, after, settings, status, now)
}

/// Whatever setting the timer forms, if it is `set` (01 'Timer and PTO').
pub fn timer(
    set: bool,
    after: &Snapshot,
    settings: &Settings,
    status: Status,
    now: u64,
) -> Result<(), Refusal> {
    let idle = after.in_flight == 0 && status.verified();
    let searched = set && !idle && !loss_time_stands(after);
    let passed = searched && pto_passes(after, settings, status, now);
    refused_if(passed, Refusal::TooLarge)
}

fn loss_time_passes(after: &Snapshot) -> bool {
    let times = after.spaces.iter().filter_map(|s| s.loss_time);
    times.map(u128::from).any(passes)
}

/// The search for the PTO's space forms every time it comes to.
fn pto_passes(state: &Snapshot, settings: &Settings, status: Status, now: u64) -> bool {
    let factor = (1u128 << state.pto_count.min(32)).min(u128::from(u32::MAX));
    let spread = (4 * u128::from(state.rtt.rttvar)).max(u128::from(NANOS_PER_MILLI));
    let mut duration = (u128::from(state.rtt.smoothed) + spread) * factor;
    if passes(duration) || state.in_flight == 0 {
        return passes(u128::from(now) + duration);
    }
    for (number, space) in state.spaces.iter().enumerate() {
        if space.in_flight_count == 0 {
            continue;
        }
        if number == 2 && !status.completed() {
            return false;
        }
        if number == 2 {
            duration += u128::from(settings.max_ack_delay) * factor;
        }
        let from = space.last_eliciting.map_or(0, u128::from);
        if passes(from + duration) {
            return true;
        }
    }
    false
}

/// The Rust's choice among loss times: an unset one counts as smaller.
fn loss_time_stands(state: &Snapshot) -> bool {
    let mut chosen = state.spaces[0].loss_time;
    for space in &state.spaces[1..] {
        if chosen.is_none() || space.loss_time < chosen {
            chosen = space.loss_time;
        }
    }
    chosen.is_some()
}
