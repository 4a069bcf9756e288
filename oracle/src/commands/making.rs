//! `profiles`, `generate`, `cases` and `case`.

use oracle::arguments::{write_file, Arguments};
use oracle::generate::profile::{named, Profile, PROFILES};
use oracle::generate::{generated, DEFAULT_EVENTS};
use oracle::root::Root;
use oracle::trace::written;

pub fn profile_named(name: &str) -> Result<&'static Profile, String> {
    named(name).ok_or(format!("no profile '{name}'; see oracle profiles"))
}

pub fn profiles(arguments: Arguments) -> Result<bool, String> {
    arguments.nothing_more()?;
    for profile in PROFILES {
        println!("{:18} {}", profile.name, profile.says);
    }
    Ok(true)
}

pub fn generate(mut arguments: Arguments) -> Result<bool, String> {
    let profile = profile_named(&arguments.wanted("--profile")?)?;
    let seed = arguments.number("--seed")?.ok_or("--seed is missing")?;
    let events = arguments.number("--events")?;
    let most = events.map_or(DEFAULT_EVENTS, |n| n as usize);
    let path = arguments.wanted("-o")?;
    arguments.nothing_more()?;
    Root::Exact.choose()?;
    write_file(&path, &written(&generated(profile, seed, most)))?;
    Ok(true)
}

pub fn cases(arguments: Arguments) -> Result<bool, String> {
    arguments.nothing_more()?;
    oracle::cases::all().for_each(|case| println!("{}", case.name));
    Ok(true)
}

pub fn case(mut arguments: Arguments) -> Result<bool, String> {
    let path = arguments.wanted("-o")?;
    let name = arguments.only("name of a case")?;
    let case = oracle::cases::named(&name).ok_or(format!("no case '{name}'; see oracle cases"))?;
    write_file(&path, &(case.trace)())?;
    Ok(true)
}
