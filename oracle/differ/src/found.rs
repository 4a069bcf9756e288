//! A difference that was found: its smallest failing prefix, and that with all taken out that
//! can be.

use std::fmt;
use std::path::{Path, PathBuf};

use oracle::event::Event;
use oracle::settings::Settings;
use oracle::trace::written;

use crate::pair::{Pair, Step};

/// How many shorter lists of events are tried.
const MOST_TRIES: usize = 3_000;

pub struct Found {
    pub name: String,
    pub settings: Settings,
    /// Up to and with the event after which the two differ.
    pub prefix: Vec<Event>,
    pub differences: Vec<String>,
}

/// The first difference between the two, with the count of events up to it.
fn first_difference(settings: Settings, events: &[Event]) -> Option<(usize, Vec<String>)> {
    let mut pair = match Pair::new(settings) {
        Ok(pair) => pair,
        Err(difference) => return Some((0, vec![difference])),
    };
    for (at, event) in events.iter().enumerate() {
        match pair.play(event) {
            Step::Differs(differences) => return Some((at + 1, differences)),
            Step::Left(_) => return None,
            Step::Held | Step::Same { .. } => {}
        }
    }
    let differences = pair.end();
    (!differences.is_empty()).then_some((events.len(), differences))
}

/// Ranges stay with their ack.
fn groups(events: &[Event]) -> Vec<Vec<Event>> {
    let mut groups = vec![Vec::new()];
    for event in events {
        let last = groups.last_mut().expect("there is one");
        last.push(event.clone());
        if !matches!(event, Event::Range { .. }) {
            groups.push(Vec::new());
        }
    }
    groups.retain(|group| !group.is_empty());
    groups
}

/// Takes out what can be taken out with a difference still left, halves first.
fn shortened(settings: Settings, events: &[Event]) -> (Vec<Event>, Vec<String>) {
    let mut kept = groups(events);
    let mut differences = Vec::new();
    let mut tries = 0;
    let mut width = kept.len().div_ceil(2);
    while width > 0 && tries < MOST_TRIES {
        let mut at = 0;
        let mut shorter_found = false;
        while at < kept.len() && tries < MOST_TRIES {
            tries += 1;
            let end = (at + width).min(kept.len());
            let left = [&kept[..at], &kept[end..]].concat();
            match first_difference(settings, &left.concat()) {
                Some((count, found)) => {
                    kept = groups(&left.concat()[..count]);
                    differences = found;
                    shorter_found = true;
                }
                None => at = end,
            }
        }
        if !shorter_found || width > 1 {
            width /= 2;
        }
    }
    (kept.concat(), differences)
}

impl Found {
    /// Writes both lists as traces; answers where.
    fn dump(&self, shorter: &[Event], folder: &Path) -> Result<[PathBuf; 2], String> {
        let failed = |e: std::io::Error| format!("{}: {e}", folder.display());
        std::fs::create_dir_all(folder).map_err(failed)?;
        let whole = folder.join(format!("{}.trace", self.name));
        let short = folder.join(format!("{}_short.trace", self.name));
        std::fs::write(&whole, written(&self.prefix)).map_err(failed)?;
        std::fs::write(&short, written(shorter)).map_err(failed)?;
        Ok([whole, short])
    }

    pub fn report(&self, folder: &Path) -> Result<(), String> {
        let (shorter, shorter_differences) = shortened(self.settings, &self.prefix);
        let [whole, short] = self.dump(&shorter, folder)?;
        println!("DIFFERENCE in {}", self.name);
        println!("settings {}", Words(&self.settings));
        println!("after event {} of {}:", self.prefix.len(), whole.display());
        self.differences
            .iter()
            .for_each(|line| println!("  {line}"));
        println!("and after event {} of {}:", shorter.len(), short.display());
        shorter_differences
            .iter()
            .for_each(|line| println!("  {line}"));
        println!("whose events are:");
        shorter.iter().for_each(|event| println!("  {event:?}"));
        println!(
            "again: differ trace --settings {} {}",
            Words(&self.settings),
            short.display()
        );
        Ok(())
    }
}

/// Settings as `--settings` takes them.
struct Words<'a>(&'a Settings);

impl fmt::Display for Words<'_> {
    fn fmt(&self, f: &mut fmt::Formatter) -> fmt::Result {
        let s = self.0;
        write!(
            f,
            "{},{},{},{}",
            s.datagram_size, s.initial_packets, s.initial_rtt, s.max_ack_delay
        )
    }
}
