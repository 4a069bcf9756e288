//! Many generated traces, with events among them that must be refused, on several threads.

use std::ops::Range;
use std::path::PathBuf;
use std::sync::atomic::{AtomicBool, AtomicU64, Ordering};
use std::sync::Mutex;
use std::time::{Duration, Instant};

use oracle::coverage::{covered, Counts, THINGS};
use oracle::event::Event;
use oracle::generate::generated_without_limit;
use oracle::generate::profile::Profile;
use oracle::generate::random::Random;
use oracle::root::Root;
use oracle::settings::Settings;

use crate::found::Found;
use crate::mischief::mischief;
use crate::pair::{Pair, Step};

/// One in so many events is preceded by one that must be refused.
const MISCHIEF_EVERY: u64 = 16;
/// One in so many traces has settings of its own.
const SETTINGS_EVERY: u64 = 4;
/// One in so many traces is ten times as long.
const LONG_EVERY: u64 = 30;
const PROGRESS_EVERY: Duration = Duration::from_secs(5);

pub struct Plan {
    pub profiles: Vec<&'static Profile>,
    pub seeds: Range<u64>,
    pub events: usize,
    pub threads: usize,
    pub dump: PathBuf,
}

/// What was compared.
#[derive(Default)]
struct Tally {
    traces: u64,
    /// Ranges apart.
    events: u64,
    ranges: u64,
    entries: u64,
    refused: [u64; 8],
    left: u64,
    own_settings: u64,
    covered: Counts,
}

impl Tally {
    fn add(&mut self, other: &Tally) {
        self.traces += other.traces;
        self.events += other.events;
        self.ranges += other.ranges;
        self.entries += other.entries;
        self.left += other.left;
        self.own_settings += other.own_settings;
        let refused = self.refused.iter_mut().zip(other.refused);
        refused.for_each(|(all, more)| *all += more);
        self.covered.add(&other.covered);
    }
}

fn drawn_settings(random: &mut Random) -> Settings {
    let longest_rtt = 1_000_000 << random.below(14);
    let longest_delay = 16_383_000_000 >> random.below(16);
    Settings {
        datagram_size: [1_200, 1_201, 1_350, 1_500, 9_000, 65_527][random.below(6) as usize],
        initial_packets: random.between((2, 100)),
        initial_rtt: random.between((1_000_000, longest_rtt)),
        max_ack_delay: random.between((0, longest_delay)),
    }
}

/// Plays one trace on both; answers what was compared, or the difference.
fn compared(
    settings: Settings,
    events: &[Event],
    name: String,
    random: &mut Random,
) -> Result<Tally, Found> {
    let mut tally = Tally::default();
    let mut played = Vec::with_capacity(events.len() * 17 / 16);
    let found = |prefix, differences| Found {
        name: name.clone(),
        settings,
        prefix,
        differences,
    };
    let mut pair = Pair::new(settings).map_err(|line| found(Vec::new(), vec![line]))?;
    let mut between_groups = true;
    'events: for event in events {
        let mut group = Vec::new();
        if between_groups && random.below(MISCHIEF_EVERY) == 0 {
            group = mischief(pair.rust(), random);
        }
        group.push(event.clone());
        between_groups = !matches!(event, Event::Range { .. });
        for event in group {
            let step = pair.play(&event);
            played.push(event);
            match step {
                Step::Held => tally.ranges += 1,
                Step::Same { refusal } => {
                    tally.events += 1;
                    tally.refused[refusal as usize] += 1;
                }
                // The Rust has played one event more than ours.
                Step::Left(why) => {
                    eprintln!("differ: {name} ends at event {}: {why}", played.len());
                    tally.left = 1;
                    break 'events;
                }
                Step::Differs(differences) => return Err(found(played, differences)),
            }
        }
    }
    let differences = if tally.left == 0 {
        pair.end()
    } else {
        Vec::new()
    };
    if !differences.is_empty() {
        return Err(found(played, differences));
    }
    tally.traces = 1;
    tally.entries = pair.entries;
    Ok(tally)
}

fn one_job(profile: &'static Profile, seed: u64, most: usize) -> Result<Tally, Found> {
    let mut random = Random::new(seed.rotate_left(17) ^ 0x6469_6666_6572);
    let own = seed % SETTINGS_EVERY == SETTINGS_EVERY - 1;
    let settings = if own {
        drawn_settings(&mut random)
    } else {
        Settings::default()
    };
    let most = if seed % LONG_EVERY == LONG_EVERY / 3 {
        10 * most
    } else {
        most
    };
    let events = generated_without_limit(settings, profile, seed, most);
    let name = format!("{}_seed_{seed}", profile.name);
    let mut tally = compared(settings, &events, name, &mut random)?;
    tally.own_settings = u64::from(own);
    if !own {
        tally.covered = covered(&events);
    }
    Ok(tally)
}

/// What the threads share.
struct Shared {
    next: AtomicU64,
    events: AtomicU64,
    stop: AtomicBool,
    tally: Mutex<Tally>,
    found: Mutex<Option<Found>>,
}

impl Plan {
    fn jobs(&self) -> u64 {
        (self.seeds.end - self.seeds.start) * self.profiles.len() as u64
    }

    /// Seed by seed over all profiles, so that each is seen early.
    fn job(&self, at: u64) -> (&'static Profile, u64) {
        let count = self.profiles.len() as u64;
        let profile = self.profiles[(at % count) as usize];
        (profile, self.seeds.start + at / count)
    }

    fn work(&self, shared: &Shared) {
        Root::Exact.choose().expect("it is always built in");
        while !shared.stop.load(Ordering::Relaxed) {
            let at = shared.next.fetch_add(1, Ordering::Relaxed);
            if at >= self.jobs() {
                return;
            }
            let (profile, seed) = self.job(at);
            match one_job(profile, seed, self.events) {
                Ok(tally) => {
                    shared.events.fetch_add(tally.events, Ordering::Relaxed);
                    shared.tally.lock().expect("no thread panics").add(&tally);
                }
                Err(found) => {
                    shared.stop.store(true, Ordering::Relaxed);
                    *shared.found.lock().expect("no thread panics") = Some(found);
                }
            }
        }
    }

    /// Ok(false): a difference was found, dumped and printed.
    pub fn run(&self) -> Result<bool, String> {
        let shared = Shared {
            next: AtomicU64::new(0),
            events: AtomicU64::new(0),
            stop: AtomicBool::new(false),
            tally: Mutex::default(),
            found: Mutex::default(),
        };
        let began = Instant::now();
        std::thread::scope(|scope| {
            let workers: Vec<_> = (0..self.threads)
                .map(|_| scope.spawn(|| self.work(&shared)))
                .collect();
            let mut said = Instant::now();
            while !workers.iter().all(|worker| worker.is_finished()) {
                std::thread::sleep(Duration::from_millis(20));
                if said.elapsed() >= PROGRESS_EVERY {
                    said = Instant::now();
                    self.say_progress(&shared, began);
                }
            }
        });
        if let Some(found) = shared.found.into_inner().expect("no thread panics") {
            // The root is each thread's own.
            Root::Exact.choose()?;
            found.report(&self.dump)?;
            return Ok(false);
        }
        let tally = shared.tally.into_inner().expect("no thread panics");
        say_tally(&tally, began.elapsed());
        Ok(true)
    }

    fn say_progress(&self, shared: &Shared, began: Instant) {
        let done = shared.next.load(Ordering::Relaxed).min(self.jobs());
        let events = shared.events.load(Ordering::Relaxed);
        let seconds = began.elapsed().as_secs_f64();
        let left = seconds * (self.jobs() - done) as f64 / done.max(1) as f64;
        eprintln!(
            "differ: {done} of {} traces, {events} events, {:.0} events a second, {:.0} s left",
            self.jobs(),
            events as f64 / seconds,
            left,
        );
    }
}

fn say_tally(tally: &Tally, took: Duration) {
    let seconds = took.as_secs_f64();
    println!(
        "{} traces, {} of them with settings of their own; {} events and {} ranges in {seconds:.1} s; \
         no difference",
        tally.traces, tally.own_settings, tally.events, tally.ranges,
    );
    println!(
        "{} records compared entry by entry; {} traces left 01's domain on the way",
        tally.entries, tally.left,
    );
    let numbers: Vec<String> = (1..8)
        .map(|number| format!("{number}: {}", tally.refused[number]))
        .collect();
    println!("refusals given alike: {}", numbers.join(", "));
    let missed = THINGS.iter().filter(|&&t| tally.covered.of(t) == 0);
    let missed: Vec<&str> = missed.map(|thing| thing.says()).collect();
    println!(
        "covered: {} of {} things{}{}",
        THINGS.len() - missed.len(),
        THINGS.len(),
        if missed.is_empty() { "" } else { "; not: " },
        missed.join(", "),
    );
}
