//! `replay`, `inspect` and `domain`.

use std::io::Write;

use oracle::arguments::{read_file, Arguments};
use oracle::domain::judged;
use oracle::replay::{replayed, Print};
use oracle::root::Root;

pub fn replay(mut arguments: Arguments) -> Result<bool, String> {
    let print = if arguments.flag("--all") {
        Print::All
    } else {
        Print::Lines
    };
    let root = if arguments.flag("--shipped-root") {
        Root::Shipped
    } else {
        Root::Exact
    };
    let trace = read_file(&arguments.only("trace file")?)?;
    root.choose()?;
    printed(&replayed(&trace, print))
}

pub fn inspect(arguments: Arguments) -> Result<bool, String> {
    let trace = read_file(&arguments.only("trace file")?)?;
    Root::Exact.choose()?;
    printed(&replayed(&trace, Print::Inspected))
}

fn printed(out: &str) -> Result<bool, String> {
    std::io::stdout()
        .write_all(out.as_bytes())
        .map_err(|e| format!("standard output: {e}"))?;
    Ok(true)
}

pub fn domain(arguments: Arguments) -> Result<bool, String> {
    let files = arguments.rest()?;
    if files.is_empty() {
        return Err("wanted: trace files".to_string());
    }
    Root::Exact.choose()?;
    let mut all_inside = true;
    for file in files {
        match judged(&read_file(&file)?) {
            Ok(events) => println!("{file}: in the domain, {events} events"),
            Err(left) => {
                println!("{file}: {left}");
                all_inside = false;
            }
        }
    }
    Ok(all_inside)
}
