//! Times the oracle on a trace that is already in memory.

use std::time::{Duration, Instant};

use crate::event::Event;
use crate::replay::Player;
use crate::trace::{written, Reader};

/// The best and the middle of several runs.
pub struct Timing {
    pub best: Duration,
    pub median: Duration,
}

/// What was run and how long it took, once a run.
pub struct Benched {
    pub events: usize,
    pub bytes: usize,
    /// The events are there already: recovery alone.
    pub recovery: Timing,
    /// From the trace's bytes to 01's lines in memory.
    pub replay: Timing,
}

fn timed(runs: usize, mut run: impl FnMut()) -> Timing {
    let mut times: Vec<Duration> = (0..runs)
        .map(|_| {
            let start = Instant::now();
            run();
            start.elapsed()
        })
        .collect();
    times.sort();
    Timing {
        best: times[0],
        median: times[runs / 2],
    }
}

/// Plays the events and answers with the last window, so that nothing is left out.
fn play(events: &[Event]) -> u64 {
    let mut player = Player::with_defaults();
    for event in events {
        player.play(event);
    }
    player.oracle.window()
}

fn play_to_lines(bytes: &[u8]) -> usize {
    let mut player = Player::with_defaults();
    let mut lines = String::new();
    for event in Reader::new(bytes).flatten() {
        if let Some(outcome) = player.play(&event) {
            lines.push_str(&player.line(&event, &outcome));
            lines.push('\n');
        }
    }
    lines.len()
}

/// The thread's root must be chosen. `runs` is at least 1.
pub fn benched(events: &[Event], runs: usize) -> Benched {
    let bytes = written(events);
    Benched {
        events: events.len(),
        bytes: bytes.len(),
        recovery: timed(runs, || {
            std::hint::black_box(play(std::hint::black_box(events)));
        }),
        replay: timed(runs, || {
            std::hint::black_box(play_to_lines(std::hint::black_box(&bytes)));
        }),
    }
}
