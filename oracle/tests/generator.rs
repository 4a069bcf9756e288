//! The generator: same seed, same trace; inside the domain; counting changes nothing.

use oracle::connection::Oracle;
use oracle::domain::judged;
use oracle::event::Event;
use oracle::generate::generated;
use oracle::generate::profile::{named, PROFILES};
use oracle::replay::Player;
use oracle::root::Root;
use oracle::settings::Settings;
use oracle::trace::{written, Reader, LONGEST_TRACE};

#[test]
fn same_seed_gives_the_same_trace_and_another_seed_another() {
    Root::Exact.choose().unwrap();
    let steady = named("steady").unwrap();
    let trace = |seed| written(&generated(steady, seed, 400));
    assert_eq!(trace(5), trace(5));
    assert_ne!(trace(5), trace(6));
}

#[test]
fn longest_traces_of_all_profiles_stay_in_the_domain_and_in_65536_bytes() {
    Root::Exact.choose().unwrap();
    for profile in PROFILES {
        let trace = written(&generated(profile, 1_000, usize::MAX - 64));
        assert!(trace.len() <= LONGEST_TRACE);
        assert!(
            trace.len() > LONGEST_TRACE / 8,
            "{} stops early",
            profile.name
        );
        assert!(judged(&trace).is_ok(), "{}", profile.name);
    }
}

#[test]
fn what_was_written_is_read_back() {
    Root::Exact.choose().unwrap();
    for profile in PROFILES {
        let events = generated(profile, 7, 300);
        let read: Vec<Event> = Reader::new(&written(&events)).map(Result::unwrap).collect();
        assert_eq!(read, events);
    }
}

/// The counting table feeds CUBIC packet by packet; every state must be the same.
#[test]
fn observed_and_plain_recovery_hold_the_same_after_each_event() {
    Root::Exact.choose().unwrap();
    for profile in PROFILES {
        let mut plain = Player::with_defaults();
        let mut observed_oracle = Oracle::new(Settings::default()).unwrap();
        observed_oracle.observe();
        let mut observed = Player::new(observed_oracle);
        for event in generated(profile, 3, 1_000) {
            assert_eq!(plain.play(&event), observed.play(&event));
            let states = [&plain, &observed].map(|p| p.oracle.snapshot());
            assert!(states[0] == states[1], "{} {event:?}", profile.name);
        }
    }
}
