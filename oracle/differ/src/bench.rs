//! Times both sides on the same events in one process, in turns.

use std::hint::black_box;
use std::time::{Duration, Instant};

use oracle::alone::{self, Alone, Call, Ranges};
use oracle::connection::Answer;
use oracle::event::Event;
use oracle::replay::Player;
use oracle::settings::Settings;
use oracle::trace::HeldRanges;
use skavvilet::sys::{self, Connection};

use crate::ours::call;

/// One call of ours, ready to be made; its ranges lie in the words, from and up to.
struct Ready {
    event: Event,
    words: std::ops::Range<usize>,
}

struct Input {
    ready: Vec<Ready>,
    words: Vec<u64>,
}

fn made_ready(events: &[Event]) -> Input {
    let mut input = Input {
        ready: Vec::new(),
        words: Vec::new(),
    };
    let mut held = HeldRanges::default();
    for event in events {
        if let Event::Range { start, end } = event {
            held.hold(*start, *end);
            continue;
        }
        let from = input.words.len();
        if matches!(event, Event::Ack { .. }) {
            input.words.extend(held.words());
            held.empty();
        }
        input.ready.push(Ready {
            event: event.clone(),
            words: from..input.words.len(),
        });
    }
    input
}

fn begin(c: &mut Connection, s: &Settings) {
    let (size, packets) = (s.datagram_size, s.initial_packets);
    // SAFETY: a whole record, and ours alone.
    let refusal = unsafe { sys::skavvilet_begin(c, size, packets, s.initial_rtt, s.max_ack_delay) };
    assert_eq!(refusal, 0, "the settings are in their ranges");
}

/// Our library, with the sum that `Alone` makes.
struct OursAlone<'a> {
    connection: &'a mut Connection,
    sum: u64,
}

impl<'a> OursAlone<'a> {
    fn new(settings: &Settings, connection: &'a mut Connection) -> Self {
        begin(connection, settings);
        OursAlone { connection, sum: 0 }
    }

    fn came_to(&self) -> (u64, u64) {
        let window = self.connection.values.congestion.congestion_window;
        (window, self.sum)
    }

    #[inline]
    fn make(&mut self, ready: &Ready, words: &[u64]) {
        let told = call(self.connection, &ready.event, &words[ready.words.clone()]);
        assert_eq!(told.refusal, 0, "inside the domain");
        match told.answer {
            Answer::Acked {
                lost_bytes,
                acked_bytes,
                ..
            } => self.sum += lost_bytes + acked_bytes,
            Answer::TimedOut { lost_bytes, .. } => self.sum += lost_bytes,
            Answer::Handle(handle) => self.sum ^= handle,
            Answer::Nothing => {}
        }
    }
}

fn run_ours(settings: &Settings, input: &Input, c: &mut Connection) -> (u64, u64) {
    let mut ours = OursAlone::new(settings, c);
    for ready in &input.ready {
        ours.make(ready, &input.words);
    }
    ours.came_to()
}

fn run_rust(settings: &Settings, calls: &[Call], ranges: Ranges) -> (u64, u64) {
    let mut rust = Alone::new(settings, ranges);
    calls.iter().for_each(|call| rust.make(call));
    rust.came_to()
}

/// With the oracle's refusals in front, as its replay runs.
fn fronted(events: &[Event]) -> u64 {
    let mut player = Player::with_defaults();
    for event in events {
        player.play(event);
    }
    player.oracle.window()
}

/// What the buffers hold while the trace runs.
struct Condition {
    calls: u64,
    sent: u64,
    lost: u64,
    acks: u64,
    ranges: u64,
    most_ranges: u64,
    records: u64,
    most_records: u64,
    in_flight: u64,
}

fn condition(events: &[Event]) -> Condition {
    let mut seen = Condition {
        calls: 0,
        sent: 0,
        lost: 0,
        acks: 0,
        ranges: 0,
        most_ranges: 0,
        records: 0,
        most_records: 0,
        in_flight: 0,
    };
    let mut player = Player::with_defaults();
    let mut held = 0;
    for event in events {
        let outcome = player.play(event);
        match event {
            Event::Range { .. } => held += 1,
            Event::Ack { .. } => {
                seen.acks += 1;
                seen.ranges += held;
                seen.most_ranges = seen.most_ranges.max(held);
                held = 0;
            }
            Event::Sent { .. } => seen.sent += 1,
            _ => {}
        }
        if outcome.is_some() {
            let state = player.oracle.snapshot();
            let records: u64 = state.spaces.iter().map(|s| s.records).sum();
            seen.calls += 1;
            seen.records += records;
            seen.most_records = seen.most_records.max(records);
            seen.in_flight += state.spaces.iter().map(|s| s.in_flight_count).sum::<u64>();
            seen.lost = state.lost_count;
        }
    }
    seen
}

fn timed(mut run: impl FnMut()) -> Duration {
    let began = Instant::now();
    run();
    began.elapsed()
}

/// The best and the middle of several rounds.
fn best_and_middle(times: &mut [Duration]) -> (Duration, Duration) {
    times.sort();
    (times[0], times[times.len() / 2])
}

/// Answers the best and the middle.
fn shown(what: &str, times: &mut [Duration], events: usize, calls: usize) -> [f64; 2] {
    let (best, middle) = best_and_middle(times);
    let ns = |time: Duration| time.as_nanos() as f64;
    println!(
        "{what:36} middle {:6.1} ns an event, {:6.1} ns a call; best {:6.1} and {:6.1}",
        ns(middle) / events as f64,
        ns(middle) / calls as f64,
        ns(best) / events as f64,
        ns(best) / calls as f64,
    );
    [ns(best), ns(middle)]
}

fn show_condition(name: &str, events: &[Event], rounds: usize) {
    let seen = condition(events);
    println!(
        "{name}: {} events, ranges counted, in {} calls; {} packets sent, {} declared lost ({:.1}%); \
         {rounds} rounds in turn",
        events.len(),
        seen.calls,
        seen.sent,
        seen.lost,
        100.0 * seen.lost as f64 / seen.sent.max(1) as f64,
    );
    let a_call = |n: u64| n as f64 / seen.calls as f64;
    println!(
        "buffers: {:.1} records stand ({} at most), {:.1} in flight; {:.1} ranges an ack ({} at most), \
         {} acks",
        a_call(seen.records),
        seen.most_records,
        a_call(seen.in_flight),
        seen.ranges as f64 / seen.acks.max(1) as f64,
        seen.most_ranges,
        seen.acks,
    );
}

const KINDS: [&str; 10] = [
    "",
    "sent",
    "",
    "ack",
    "timeout",
    "discard",
    "size",
    "take acked",
    "take lost",
    "ping",
];

/// The middle time of a call of each kind on both sides, timed one by one, with the clock's own
/// time taken off. Dearer than in a row, since the clock stands between.
fn show_kinds(settings: &Settings, input: &Input, calls: &[Call], c: &mut Connection) {
    let mut clock: Vec<Duration> = (0..10_001).map(|_| timed(|| {})).collect();
    let (_, own) = best_and_middle(&mut clock);
    let mut times: [[Vec<Duration>; 2]; 10] = Default::default();
    for _ in 0..3 {
        let mut rust = Alone::new(settings, Ranges::Ready);
        let mut ours = OursAlone::new(settings, c);
        for (ready, call) in input.ready.iter().zip(calls) {
            let kind = &mut times[usize::from(ready.event.kind())];
            kind[0].push(timed(|| rust.make(black_box(call))));
            kind[1].push(timed(|| ours.make(black_box(ready), &input.words)));
        }
    }
    for (kind, [rust, ours]) in times.iter_mut().enumerate() {
        if rust.is_empty() {
            continue;
        }
        let calls = rust.len() / 3;
        let middle = |times: &mut [Duration]| best_and_middle(times).1.saturating_sub(own);
        let (rust, ours) = (middle(rust).as_nanos(), middle(ours).as_nanos());
        println!(
            "  {:10} {calls:6} calls: Rust {rust:4} ns, ours {ours:4} ns",
            KINDS[kind]
        );
    }
}

/// The thread's root must be chosen.
pub fn bench(name: &str, events: &[Event], rounds: usize) -> Result<bool, String> {
    let settings = Settings::default();
    let input = made_ready(events);
    let calls = alone::calls(events);
    let mut connection = Connection::unbegun();
    let rust_came_to = run_rust(&settings, &calls, Ranges::Ready);
    let ours_came_to = run_ours(&settings, &input, &mut connection);
    if rust_came_to != ours_came_to {
        println!("the two differ: Rust {rust_came_to:?}, ours {ours_came_to:?}; see differ trace");
        return Ok(false);
    }
    show_condition(name, events, rounds);
    let mut times = [const { Vec::new() }; 4];
    for _ in 0..rounds {
        times[0].push(timed(|| {
            black_box(run_rust(&settings, black_box(&calls), Ranges::Ready));
        }));
        times[1].push(timed(|| {
            black_box(run_ours(&settings, black_box(&input), &mut connection));
        }));
        times[2].push(timed(|| {
            black_box(run_rust(&settings, black_box(&calls), Ranges::Built));
        }));
        times[3].push(timed(|| {
            black_box(fronted(black_box(events)));
        }));
    }
    let [ready, ours, built, front] = &mut times;
    let show = |what, times: &mut [Duration]| shown(what, times, events.len(), calls.len());
    let ready = show("Rust alone, its ranges ready", ready);
    let built = show("Rust alone, building its ranges", built);
    let front = show("Rust behind the oracle's refusals", front);
    let ours = show("ours, refusals and all", ours);
    for (which, name) in ["best", "middle"].iter().enumerate() {
        println!(
            "ours by the {name} takes {:.2} times the Rust alone with its ranges ready, {:.2} building \
             them, {:.2} behind refusals",
            ours[which] / ready[which],
            ours[which] / built[which],
            ours[which] / front[which],
        );
    }
    show_kinds(&settings, &input, &calls, &mut connection);
    Ok(true)
}
