//! `coverage`: a table of profiles and things covered.

use std::ops::Range;

use oracle::arguments::{read_file, Arguments};
use oracle::coverage::{covered, Counts, Thing, THINGS};
use oracle::domain::judged;
use oracle::event::Event;
use oracle::generate::profile::{Profile, PROFILES};
use oracle::generate::{generated, DEFAULT_EVENTS};
use oracle::root::Root;
use oracle::trace::{written, Reader};

/// What one profile's traces came to.
struct Row {
    profile: &'static Profile,
    counts: Counts,
    traces: u64,
    outside: u64,
}

fn measured(profile: &'static Profile, seeds: Range<u64>, most_events: usize) -> Row {
    let mut row = Row {
        profile,
        counts: Counts::default(),
        traces: 0,
        outside: 0,
    };
    for seed in seeds {
        let events = generated(profile, seed, most_events);
        row.traces += 1;
        if let Err(left) = judged(&written(&events)) {
            println!("{} seed {seed} {left}", profile.name);
            row.outside += 1;
        }
        row.counts.add(&covered(&events));
    }
    eprintln!("coverage: {} done, {} traces", profile.name, row.traces);
    row
}

fn print_table(rows: &[Row]) {
    for (number, row) in rows.iter().enumerate() {
        println!("column {:2}: {}", number + 1, row.profile.name);
    }
    println!();
    let columns: String = (1..=rows.len()).map(|n| format!("{n:>7}")).collect();
    println!("{:54}{columns}{:>9}", "", "all");
    for &thing in THINGS {
        let counts: Vec<u64> = rows.iter().map(|r| r.counts.of(thing)).collect();
        let cells: String = counts.iter().map(|n| format!("{n:>7}")).collect();
        let all: u64 = counts.iter().sum();
        println!("{:54}{cells}{all:>9}", thing.says());
    }
}

/// Everything that is wrong with the table, one line each.
fn faults(rows: &[Row]) -> Vec<String> {
    let mut faults = Vec::new();
    for &thing in THINGS {
        if rows.iter().all(|r| r.counts.of(thing) == 0) {
            faults.push(format!("zero row: {}", thing.says()));
        }
    }
    for row in rows {
        let name = row.profile.name;
        for &thing in row.profile.reaches {
            if row.counts.of(thing) == 0 {
                faults.push(format!("profile {name} never reaches: {}", thing.says()));
            }
        }
        if row.outside > 0 {
            faults.push(format!(
                "profile {name}: {} traces left the domain",
                row.outside
            ));
        }
    }
    faults
}

pub fn coverage(mut arguments: Arguments) -> Result<bool, String> {
    let seeds = arguments.seeds()?.ok_or("--seeds is missing")?;
    let events = arguments.number("--events")?;
    let most = events.map_or(DEFAULT_EVENTS, |n| n as usize);
    arguments.nothing_more()?;
    Root::Exact.choose()?;
    let rows: Vec<Row> = PROFILES
        .iter()
        .map(|profile| measured(profile, seeds.clone(), most))
        .collect();
    print_table(&rows);
    let traces: u64 = rows.iter().map(|r| r.traces).sum();
    let outside: u64 = rows.iter().map(|r| r.outside).sum();
    println!("\n{traces} traces, {} in the domain", traces - outside);
    let faults = faults(&rows);
    faults.iter().for_each(|fault| println!("{fault}"));
    Ok(faults.is_empty())
}

pub fn covers(mut arguments: Arguments) -> Result<bool, String> {
    let must = arguments.value("--must")?;
    let trace = read_file(&arguments.only("trace file")?)?;
    Root::Exact.choose()?;
    let events: Vec<Event> = Reader::new(&trace).map_while(Result::ok).collect();
    let counts = covered(&events);
    let Some(name) = must else {
        for &thing in THINGS.iter().filter(|&&t| counts.of(t) > 0) {
            println!("{:6} {thing:?}: {}", counts.of(thing), thing.says());
        }
        return Ok(true);
    };
    let thing = Thing::named(&name).ok_or(format!("nothing is called '{name}'"))?;
    Ok(counts.of(thing) > 0)
}
