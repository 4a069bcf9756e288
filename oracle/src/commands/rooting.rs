//! `root` and `roots-differ`.

use oracle::arguments::{read_file, Arguments};
use oracle::generate::profile::PROFILES;
use oracle::generate::{generated, DEFAULT_EVENTS};
use oracle::replay::Player;
use oracle::root::{shipped_name, Root};
use oracle::trace::{written, Reader};

pub fn root(mut arguments: Arguments) -> Result<bool, String> {
    let which = if arguments.flag("--shipped-root") {
        Root::Shipped
    } else {
        Root::Exact
    };
    let text = arguments.wanted("--hex")?;
    arguments.nothing_more()?;
    let digits = text.trim_start_matches("0x");
    let bits = u64::from_str_radix(digits, 16)
        .map_err(|_| format!("--hex wants a float's bits, not '{text}'"))?;
    let argument = f64::from_bits(bits);
    if argument < 0.0 || !argument.is_finite() {
        return Err(format!("no root is asked of {argument}"));
    }
    which.choose()?;
    let function = which.function().expect("it was just chosen");
    println!("{:016x}", function(argument).to_bits());
    Ok(true)
}

/// What two replays of the same traces, with one root each, came to.
#[derive(Default)]
struct Difference {
    traces: u64,
    events: u64,
    windows: u64,
    k_changes: u64,
    k_bits: u64,
}

/// Window and K's bits after each event.
fn windows_and_k(trace: &[u8], root: Root) -> Result<Vec<(u64, u64)>, String> {
    root.choose()?;
    let mut player = Player::with_defaults();
    let mut states = Vec::new();
    for event in Reader::new(trace).flatten() {
        if player.play(&event).is_some() {
            let state = player.oracle.snapshot();
            states.push((state.window, state.cubic.k));
        }
    }
    Ok(states)
}

impl Difference {
    fn add(&mut self, trace: &[u8]) -> Result<(), String> {
        let exact = windows_and_k(trace, Root::Exact)?;
        let shipped = windows_and_k(trace, Root::Shipped)?;
        self.traces += 1;
        let mut last_k = 0;
        for (ours, theirs) in exact.iter().zip(&shipped) {
            self.events += 1;
            self.windows += u64::from(ours.0 != theirs.0);
            if ours.1 != last_k {
                last_k = ours.1;
                self.k_changes += 1;
                self.k_bits += u64::from(ours.1 != theirs.1);
            }
        }
        Ok(())
    }
}

pub fn roots_differ(mut arguments: Arguments) -> Result<bool, String> {
    let seeds = arguments.seeds()?;
    let events = arguments.number("--events")?;
    let most = events.map_or(DEFAULT_EVENTS, |n| n as usize);
    let files = arguments.rest()?;
    if seeds.is_none() == files.is_empty() {
        return Err("wanted: either trace files or --seeds A..B".to_string());
    }
    Root::Shipped.choose()?;
    let mut difference = Difference::default();
    for file in &files {
        difference.add(&read_file(file)?)?;
    }
    for profile in PROFILES.iter().filter(|_| seeds.is_some()) {
        for seed in seeds.clone().into_iter().flatten() {
            Root::Exact.choose()?;
            difference.add(&written(&generated(profile, seed, most)))?;
        }
        eprintln!("roots-differ: {} done", profile.name);
    }
    let name = shipped_name().unwrap_or("none");
    println!(
        "exact root against {name}: {} traces, {} events, {} windows differ; \
         of {} new values of K {} differ in a bit",
        difference.traces,
        difference.events,
        difference.windows,
        difference.k_changes,
        difference.k_bits,
    );
    Ok(true)
}
