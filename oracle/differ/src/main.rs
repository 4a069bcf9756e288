//! Our library against the real Rust, event by event; see `differ --help`.

mod bench;
#[cfg(test)]
mod face;
mod found;
mod mischief;
mod ours;
mod pair;
mod run;

use std::path::{Path, PathBuf};
use std::process::ExitCode;

use oracle::arguments::{read_file, Arguments};
use oracle::event::Event;
use oracle::generate::profile::{named, Profile, PROFILES};
use oracle::generate::{generated_without_limit, DEFAULT_EVENTS};
use oracle::root::Root;
use oracle::settings::Settings;
use oracle::trace::Reader;

use found::Found;
use pair::{Pair, Step};
use run::Plan;

const HELP: &str = "\
Our static library and quiche 0.30.0's recovery in one process. Both get the same events, and
after each one every answer, refusal, estimate, window, timer, count and float bit is compared;
every record and queue entry after every 16th event and at a trace's end.

differ short FILE..
    settings at their edges, the stored traces given, 720 generated ones; under a minute
differ long [--threads N]
    20,040 generated traces, over ten million events
differ run --seeds A..B [--profiles P,P] [--events M] [--threads N]
    generated traces of those seeds and about M events (1,500); one in 16 events is preceded by
    one that must be refused, one in 4 traces has settings of its own, one in 30 is ten times
    as long
differ trace [--settings SIZE,PACKETS,RTT,DELAY] FILE..
    stored traces, up to where one leaves 01's domain of equality but for refusals
differ bench [--profile P] [--seed N] [--events M] [--rounds R]
    times both on one trace in memory: steady data with 2% of packets lost, 100,000 events

On a difference: the smallest failing prefix and a shortened one are written as traces to
--dump FOLDER (target/oracle/differ), printed, and the status is 1.";

const DUMP: &str = "target/oracle/differ";
const SHORT_SEEDS: std::ops::Range<u64> = 0..60;
const LONG_SEEDS: std::ops::Range<u64> = 1_000..2_670;

fn profiles(names: Option<String>) -> Result<Vec<&'static Profile>, String> {
    let Some(names) = names else {
        return Ok(PROFILES.iter().collect());
    };
    let each = names.split(',');
    each.map(|name| named(name).ok_or(format!("no profile '{name}'; see oracle profiles")))
        .collect()
}

fn settings(text: Option<String>) -> Result<Settings, String> {
    let Some(text) = text else {
        return Ok(Settings::default());
    };
    let numbers: Result<Vec<u64>, _> = text.split(',').map(str::parse).collect();
    match numbers.as_deref() {
        Ok(&[datagram_size, initial_packets, initial_rtt, max_ack_delay]) => Ok(Settings {
            datagram_size,
            initial_packets,
            initial_rtt,
            max_ack_delay,
        }),
        _ => Err(format!("--settings wants four whole numbers, not '{text}'")),
    }
}

/// Plays one trace; Ok(None) means that no difference was seen.
fn played(path: &str, settings: Settings) -> Result<Option<Found>, String> {
    let bytes = read_file(path)?;
    let name = Path::new(path)
        .file_stem()
        .map_or("trace".to_string(), |stem| stem.to_string_lossy().into());
    let found = |prefix: &[Event], differences| {
        Ok(Some(Found {
            name: format!("{name}_differs"),
            settings,
            prefix: prefix.to_vec(),
            differences,
        }))
    };
    let mut pair = match Pair::new(settings) {
        Ok(pair) => pair,
        Err(line) => return found(&[], vec![line]),
    };
    let events: Vec<Event> = Reader::new(&bytes).map_while(Result::ok).collect();
    for (at, event) in events.iter().enumerate() {
        match pair.play(event) {
            Step::Held | Step::Same { .. } => {}
            Step::Left(_) => return Ok(None),
            Step::Differs(lines) => return found(&events[..=at], lines),
        }
    }
    let lines = pair.end();
    if lines.is_empty() {
        return Ok(None);
    }
    found(&events, lines)
}

fn traces(files: &[String], settings: Settings, dump: &Path) -> Result<bool, String> {
    Root::Exact.choose()?;
    for file in files {
        if let Some(found) = played(file, settings)? {
            found.report(dump)?;
            return Ok(false);
        }
    }
    println!("{} stored traces, no difference", files.len());
    Ok(true)
}

fn trace(mut arguments: Arguments) -> Result<bool, String> {
    let settings = settings(arguments.value("--settings")?)?;
    let dump = dump(&mut arguments)?;
    traces(&arguments.rest()?, settings, &dump)
}

fn dump(arguments: &mut Arguments) -> Result<PathBuf, String> {
    let folder = arguments.value("--dump")?;
    Ok(PathBuf::from(folder.as_deref().unwrap_or(DUMP)))
}

fn threads(arguments: &mut Arguments) -> Result<usize, String> {
    Ok(arguments.number("--threads")?.unwrap_or(1).max(1) as usize)
}

fn short(mut arguments: Arguments) -> Result<bool, String> {
    let dump = dump(&mut arguments)?;
    let plan = Plan {
        profiles: profiles(None)?,
        seeds: SHORT_SEEDS,
        events: DEFAULT_EVENTS,
        threads: threads(&mut arguments)?,
        dump: dump.clone(),
    };
    let files = arguments.rest()?;
    Ok(pair::settings_are_judged_alike()
        && traces(&files, Settings::default(), &dump)?
        && plan.run()?)
}

fn run(mut arguments: Arguments, seeds: Option<std::ops::Range<u64>>) -> Result<bool, String> {
    let seeds = match seeds {
        Some(seeds) => seeds,
        None => arguments.seeds()?.ok_or("--seeds is missing")?,
    };
    let events = arguments.number("--events")?;
    let plan = Plan {
        profiles: profiles(arguments.value("--profiles")?)?,
        seeds,
        events: events.map_or(DEFAULT_EVENTS, |n| n as usize),
        threads: threads(&mut arguments)?,
        dump: dump(&mut arguments)?,
    };
    arguments.nothing_more()?;
    plan.run()
}

fn bench(mut arguments: Arguments) -> Result<bool, String> {
    let name = arguments.value("--profile")?;
    let name = name.as_deref().unwrap_or("steady");
    let profile = named(name).ok_or(format!("no profile '{name}'; see oracle profiles"))?;
    let seed = arguments.number("--seed")?.unwrap_or(1);
    let most = arguments.number("--events")?.unwrap_or(100_000) as usize;
    let rounds = arguments.number("--rounds")?.unwrap_or(51).max(1) as usize;
    arguments.nothing_more()?;
    Root::Exact.choose()?;
    let events = generated_without_limit(Settings::default(), profile, seed, most);
    bench::bench(&format!("profile {name}, seed {seed}"), &events, rounds)
}

/// Ok(false): it ran, and the two differ.
fn commanded(mut words: Vec<String>) -> Result<bool, String> {
    if words.is_empty() || words.iter().any(|w| w == "--help" || w == "help") {
        println!("{HELP}");
        return Ok(true);
    }
    let command = words.remove(0);
    let arguments = Arguments::new(words);
    match command.as_str() {
        "short" => short(arguments),
        "long" => run(arguments, Some(LONG_SEEDS)),
        "run" => run(arguments, None),
        "trace" => trace(arguments),
        "bench" => bench(arguments),
        _ => Err(format!("unknown command '{command}'; try differ --help")),
    }
}

fn main() -> ExitCode {
    match commanded(std::env::args().skip(1).collect()) {
        Ok(true) => ExitCode::SUCCESS,
        Ok(false) => ExitCode::from(1),
        Err(why) => {
            eprintln!("differ: {why}");
            ExitCode::from(2)
        }
    }
}
