//! `bench`.

use oracle::arguments::{read_file, Arguments};
use oracle::bench::{benched, Timing};
use oracle::event::Event;
use oracle::generate::generated_without_limit;
use oracle::root::Root;
use oracle::settings::Settings;
use oracle::trace::Reader;

use super::making::profile_named;

const EVENTS: u64 = 100_000;
const RUNS: u64 = 15;

fn shown(what: &str, timing: &Timing, events: usize) {
    let each = |time: std::time::Duration| time.as_nanos() as f64 / events as f64;
    println!(
        "{what:9} best {:8.1} ns an event ({:.3} ms a run), median {:8.1} ns",
        each(timing.best),
        timing.best.as_secs_f64() * 1e3,
        each(timing.median),
    );
}

fn read_events(path: &str) -> Result<Vec<Event>, String> {
    let bytes = read_file(path)?;
    let events: Result<Vec<Event>, _> = Reader::new(&bytes).collect();
    events.map_err(|bad| format!("{path}: bad at {}", bad.0))
}

pub fn bench(mut arguments: Arguments) -> Result<bool, String> {
    let profile = arguments.value("--profile")?;
    let profile = profile_named(profile.as_deref().unwrap_or("steady"))?;
    let seed = arguments.number("--seed")?.unwrap_or(1);
    let most = arguments.number("--events")?.unwrap_or(EVENTS) as usize;
    let runs = arguments.number("--runs")?.unwrap_or(RUNS).max(1) as usize;
    let files = arguments.rest()?;
    Root::Exact.choose()?;
    let (name, events) = match &files[..] {
        [] => {
            let name = format!("profile {}, seed {seed}", profile.name);
            (
                name,
                generated_without_limit(Settings::default(), profile, seed, most),
            )
        }
        [file] => (file.clone(), read_events(file)?),
        _ => return Err("wanted: at most one trace file".to_string()),
    };
    let result = benched(&events, runs);
    println!(
        "{name}: {} events with ranges, {} bytes, {runs} runs",
        result.events, result.bytes
    );
    shown("recovery", &result.recovery, result.events);
    shown("replay", &result.replay, result.events);
    Ok(true)
}
