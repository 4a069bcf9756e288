//! Seeded traces inside 01's domain, made by driving the real recovery.

mod handshake;
mod peer;
pub mod profile;
pub mod random;
mod sender;
mod world;

use crate::connection::Oracle;
use crate::event::Event;
use crate::settings::Settings;
use crate::trace::LONGEST_TRACE;
use profile::Profile;
use random::Random;
use world::World;

/// Ranges count as events here, so that a trace's bytes follow.
pub const DEFAULT_EVENTS: usize = 1_500;

/// The events of a trace of at most 65,536 bytes. The thread's root must be chosen.
pub fn generated(profile: &Profile, seed: u64, most_events: usize) -> Vec<Event> {
    let settings = Settings::default();
    run(settings, profile, seed, (most_events, LONGEST_TRACE))
}

/// As `generated`, of any length and for a connection with these settings, which must be in
/// their ranges.
pub fn generated_without_limit(
    settings: Settings,
    profile: &Profile,
    seed: u64,
    most_events: usize,
) -> Vec<Event> {
    run(settings, profile, seed, (most_events, usize::MAX))
}

fn run(settings: Settings, profile: &Profile, seed: u64, most: (usize, usize)) -> Vec<Event> {
    let name = profile.name.bytes();
    let salt = name.fold(0, |n: u64, b| n.rotate_left(7) ^ u64::from(b));
    let random = Random::new(seed ^ salt.rotate_left(32));
    let oracle = Oracle::new(settings).expect("settings in their ranges");
    let (most_events, most_bytes) = most;
    World::new(profile.knobs, oracle, random, most_bytes).run(most_events)
}
