//! The oracle's commands, one file for each group.

mod covering;
mod making;
mod replaying;
mod rooting;
mod timing;

use oracle::arguments::Arguments;

pub const HELP: &str = "\
quiche 0.30.0's loss recovery behind document 01's events.

oracle replay [--all] [--shipped-root] FILE
    01's lines of a trace; with --all everything held after each event
oracle inspect FILE
    01's lines, each with answers, estimates, CUBIC, counts and spaces behind it
oracle domain FILE..
    where each trace leaves 01's domain of equality, and why; status 1 if one does
oracle profiles
    the generator's profiles
oracle generate --profile P --seed N [--events M] -o FILE
    a seeded trace inside the domain, of at most 65,536 bytes
oracle cases
    the names of the traces built by hand
oracle case NAME -o FILE
    one of them
oracle coverage --seeds A..B [--events M]
    what generated traces cover, profile by profile; status 1 if a row is zero, a
    profile misses what its name says, or a trace leaves the domain
oracle covers [--must THING] FILE
    what one trace covers; with --must nothing is printed, status 1 if it misses it
oracle root --hex BITS [--shipped-root]
    the cube root of a float, both as 16 hexadecimal digits
oracle roots-differ (FILE.. | --seeds A..B [--events M])
    counts the windows that differ between the exact and the shipped root
oracle bench [--profile P] [--seed N] [--events M] [--runs R] [FILE]
    times the recovery and the replay on a trace in memory

Seeds are whole numbers, A..B is without B.";

/// Ok(false): it ran, and what it looked at isn't fine.
pub fn run(mut words: Vec<String>) -> Result<bool, String> {
    if words.is_empty() || words.iter().any(|w| w == "--help" || w == "help") {
        println!("{HELP}");
        return Ok(true);
    }
    let command = words.remove(0);
    let arguments = Arguments::new(words);
    match command.as_str() {
        "replay" => replaying::replay(arguments),
        "inspect" => replaying::inspect(arguments),
        "domain" => replaying::domain(arguments),
        "profiles" => making::profiles(arguments),
        "generate" => making::generate(arguments),
        "cases" => making::cases(arguments),
        "case" => making::case(arguments),
        "coverage" => covering::coverage(arguments),
        "covers" => covering::covers(arguments),
        "root" => rooting::root(arguments),
        "roots-differ" => rooting::roots_differ(arguments),
        "bench" => timing::bench(arguments),
        _ => Err(format!("unknown command '{command}'; try oracle --help")),
    }
}
