//! The real Rust and our library side by side, compared after each event.

use std::fmt;

use oracle::connection::{Oracle, Outcome};
use oracle::domain::{Judge, Why};
use oracle::event::Event;
use oracle::replay::Player;
use oracle::settings::Settings;
use oracle::snapshot::{Record, Snapshot};

use crate::ours::{nothing_told, Ours, Told};

/// Records and queues are compared entry by entry after so many events, and at the end.
const ENTRIES_EVERY: u64 = 16;

/// What playing one event came to.
#[derive(Clone, Debug, PartialEq, Eq)]
pub enum Step {
    /// A range is only held.
    Held,
    Same {
        refusal: u64,
    },
    /// The event leaves 01's domain of equality, so that the two may part; ours was not played.
    Left(Why),
    /// Each line names one thing, the Rust's value and ours.
    Differs(Vec<String>),
}

pub struct Pair {
    rust: Player,
    ours: Ours,
    judge: Judge,
    before: Snapshot,
    /// What our record was begun with; every event must keep it.
    seal: u64,
    since_entries: u64,
    pub entries: u64,
}

impl Pair {
    /// Settings that the two do not judge alike are a difference.
    pub fn new(settings: Settings) -> Result<Pair, String> {
        let said = |n: u64| format!("settings {settings:?}: refusal {n}");
        let (rust, ours) = (Oracle::new(settings), Ours::new(&settings));
        let rust_refusal = rust.as_ref().err().map_or(0, |r| u64::from(r.number()));
        let ours_refusal = *ours.as_ref().err().unwrap_or(&0);
        let (Ok(rust), Ok(ours)) = (rust, ours) else {
            return Err(format!("{}, ours {ours_refusal}", said(rust_refusal)));
        };
        let before = rust.snapshot();
        let seal = ours.connection().values.seal;
        Ok(Pair {
            rust: Player::new(rust),
            ours,
            judge: Judge::default(),
            before,
            seal,
            since_entries: 0,
            entries: 0,
        })
    }

    pub fn rust(&self) -> &Oracle {
        &self.rust.oracle
    }

    pub fn play(&mut self, event: &Event) -> Step {
        let Some(outcome) = self.rust.play(event) else {
            self.ours.play(event);
            return Step::Held;
        };
        let after = self.rust.oracle.snapshot();
        let left = self
            .judge
            .why_left(event, &outcome, &self.before, &after)
            .filter(|why| !matches!(why, Why::Refused(_)));
        self.before = after;
        if let Some(why) = left {
            return Step::Left(why);
        }
        let kept = outcome.is_err().then(|| self.ours.clone());
        let told = self.ours.play(event).expect("only ranges are held");
        let mut differences = Vec::new();
        compare_told(event, &outcome, told, &mut differences);
        self.compare_values(&mut differences);
        if kept.is_some_and(|kept| kept.numbers() != self.ours.numbers()) {
            differences.push("a refused event changed our record".to_string());
        }
        self.since_entries += 1;
        if self.since_entries >= ENTRIES_EVERY || !differences.is_empty() {
            self.compare_entries(&mut differences);
        }
        if differences.is_empty() {
            let refusal = told.refusal;
            Step::Same { refusal }
        } else {
            Step::Differs(differences)
        }
    }

    /// Everything once more, at a trace's end.
    pub fn end(&mut self) -> Vec<String> {
        let mut differences = Vec::new();
        self.compare_values(&mut differences);
        self.compare_entries(&mut differences);
        differences
    }

    fn compare_values(&self, differences: &mut Vec<String>) {
        let (rust, ours) = (&self.before, self.ours.snapshot(&self.before));
        if *rust != ours {
            compare_words(&rust.to_string(), &ours.to_string(), differences);
        }
        let oracle = &self.rust.oracle;
        let values = &self.ours.connection().values;
        let settings = oracle.settings();
        let mut same = |what: fmt::Arguments, rust: u64, ours: u64| {
            if rust != ours {
                differences.push(format!("{what}: Rust {rust}, ours {ours}"));
            }
        };
        same(format_args!("seal"), self.seal, values.seal);
        same(format_args!("clock"), oracle.last_now(), values.clock);
        same(
            format_args!("pto_count"),
            u64::from(rust.pto_count),
            values.pto_count,
        );
        same(
            format_args!("congestion.max_datagram_size"),
            settings.datagram_size,
            values.congestion.max_datagram_size,
        );
        same(
            format_args!("congestion.initial_window_packets"),
            settings.initial_packets,
            values.congestion.initial_window_packets,
        );
        same(
            format_args!("rtt.max_ack_delay"),
            settings.max_ack_delay,
            values.rtt.max_ack_delay,
        );
        let has_lost = self.ours.has_lost_frames();
        // One more, so that none is 0.
        let or_none = |number: Option<u64>| number.map_or(0, |n| n + 1);
        for (n, space) in rust.spaces.iter().enumerate() {
            let queued = space.lost_queue + space.pto_queue > 0;
            same(
                format_args!("space{n} has_lost_frames"),
                u64::from(queued),
                u64::from(has_lost[n]),
            );
            let (rust, ours) = (oracle.last_sent(n as u8), self.ours.last_sent(n as u8));
            same(
                format_args!("space{n} largest sent and 1"),
                or_none(rust),
                or_none(ours),
            );
        }
        if !self.ours.is_written_plainly() {
            differences.push("a time or number of ours is not written in its one way".to_string());
        }
    }

    fn compare_entries(&mut self, differences: &mut Vec<String>) {
        self.since_entries = 0;
        for space in 0..3 {
            let oracle = &self.rust.oracle;
            let rust: Vec<Record> = oracle.records(space).iter().map(plain).collect();
            let ours = self.ours.records(space);
            self.entries += ours.len() as u64;
            if rust != ours {
                let first = rust.iter().zip(&ours).position(|(r, o)| r != o);
                let at = first.unwrap_or(rust.len().min(ours.len()));
                differences.push(format!(
                    "space{space} record {at} of {}: Rust {:?}, ours {:?}",
                    rust.len(),
                    rust.get(at),
                    ours.get(at)
                ));
            }
            let (rust, ours) = (oracle.queues(space), self.ours.queues(space));
            if rust != ours {
                differences.push(format!("space{space} queues: Rust {rust:?}, ours {ours:?}"));
            }
        }
    }
}

/// Settings at both sides of each edge: both take them, or both refuse with the same number.
pub fn settings_are_judged_alike() -> bool {
    let edges: [&[u64]; 4] = [
        &[0, 1_199, 1_200, 65_527, 65_528, u64::MAX],
        &[0, 1, 2, 100, 101, u64::MAX],
        &[
            0,
            999_999,
            1_000_000,
            10_000_000_000,
            10_000_000_001,
            u64::MAX,
        ],
        &[0, 16_383_000_000, 16_383_000_001, u64::MAX],
    ];
    let mut count = 0;
    for &datagram_size in edges[0] {
        for &initial_packets in edges[1] {
            for &initial_rtt in edges[2] {
                for &max_ack_delay in edges[3] {
                    let settings = Settings {
                        datagram_size,
                        initial_packets,
                        initial_rtt,
                        max_ack_delay,
                    };
                    let rust = Oracle::new(settings).err();
                    let rust = rust.map_or(0, |refusal| u64::from(refusal.number()));
                    let ours = Ours::new(&settings).err().unwrap_or(0);
                    if rust != ours {
                        println!("DIFFERENCE in {settings:?}: Rust {rust}, ours {ours}");
                        return false;
                    }
                    count += 1;
                }
            }
        }
    }
    println!("{count} settings at their edges, no difference");
    true
}

/// The Rust's record as far as ours can tell: acked or not, and no handle once it is queued.
fn plain(record: &Record) -> Record {
    let standing = record.acked.is_none() && record.lost.is_none();
    Record {
        acked: record.acked.map(|_| 0),
        handle: if standing { record.handle } else { 0 },
        ..*record
    }
}

fn compare_told(event: &Event, rust: &Outcome, ours: Told, differences: &mut Vec<String>) {
    let rust = match rust {
        Ok(answer) => Told {
            refusal: 0,
            answer: *answer,
        },
        Err(refusal) => Told {
            refusal: u64::from(refusal.number()),
            answer: nothing_told(event),
        },
    };
    if rust != ours {
        differences.push(format!("answer: Rust {rust:?}, ours {ours:?}"));
    }
}

/// Two snapshots as printed, word by word.
fn compare_words(rust: &str, ours: &str, differences: &mut Vec<String>) {
    for (rust, ours) in rust.lines().zip(ours.lines()) {
        let part = rust.split_whitespace().next().unwrap_or("");
        for (rust, ours) in rust.split_whitespace().zip(ours.split_whitespace()) {
            if rust != ours {
                differences.push(format!("{part}: Rust {rust}, ours {ours}"));
            }
        }
    }
}

#[cfg(test)]
mod tests {
    use super::*;
    use oracle::generate::generated;
    use oracle::generate::profile::named;
    use oracle::root::Root;
    use oracle::snapshot::SpaceSnapshot;
    use skavvilet::sys::{Connection, Values};

    /// A pair in the middle of a run, with records and handles in several spaces.
    fn busy_pair() -> Pair {
        Root::Exact.choose().unwrap();
        let mut pair = Pair::new(Settings::default()).unwrap();
        let held = |pair: &Pair| {
            let records = |s: &SpaceSnapshot| s.records > 1;
            let handles = |s: &SpaceSnapshot| s.acked_queue + s.lost_queue > 0;
            let spaces = pair.before.spaces.iter();
            spaces
                .map(|s| u8::from(records(s)) + u8::from(handles(s)))
                .sum::<u8>()
        };
        for seed in 0.. {
            for event in generated(named("handshake").unwrap(), seed, 400) {
                match pair.play(&event) {
                    Step::Differs(lines) => panic!("{lines:?}"),
                    Step::Left(why) => panic!("{why}"),
                    Step::Held | Step::Same { .. } => {}
                }
                if held(&pair) >= 4 && pair.before.rtt.has_sample {
                    return pair;
                }
            }
            pair = Pair::new(Settings::default()).unwrap();
        }
        unreachable!()
    }

    fn is_noticed(pair: &mut Pair, at: usize) -> bool {
        pair.ours.numbers_mut()[at] ^= 1;
        let noticed = !pair.end().is_empty();
        pair.ours.numbers_mut()[at] ^= 1;
        noticed
    }

    /// A bit changed in any number of our values is a difference.
    #[test]
    fn every_value_is_compared() {
        let mut pair = busy_pair();
        assert_eq!(pair.end(), Vec::<String>::new());
        let count = size_of::<Connection>() / 8;
        let first = count - size_of::<Values>() / 8;
        let unnoticed: Vec<usize> = (first..count)
            .filter(|&at| !is_noticed(&mut pair, at))
            .map(|at| at - first)
            .collect();
        // Where an empty space would begin means nothing.
        let spaces = pair.before.spaces.iter().enumerate();
        let heads: Vec<usize> = spaces
            .filter(|(_, s)| s.records == 0)
            .map(|(n, _)| 1 + 15 * n)
            .collect();
        assert_eq!(unnoticed, heads, "numbers of the values, counted from 0");
    }

    /// So is one in any word of a record or a queue that is held.
    #[test]
    fn every_record_and_handle_is_compared() {
        let mut pair = busy_pair();
        let mut changed = 0;
        for space in 0..3u8 {
            let s = pair.before.spaces[usize::from(space)];
            let base = 2_304 * usize::from(space);
            let head = pair.ours.head(space);
            let standing: Vec<bool> = pair
                .ours
                .records(space)
                .iter()
                .map(|r| r.acked.is_none() && r.lost.is_none())
                .collect();
            for (k, standing) in standing.iter().enumerate() {
                for word in 0..6 {
                    let at = base + 6 * ((head + k) % 256) + word;
                    // A queued handle's own copy is in its queue.
                    if word != 4 || *standing {
                        assert!(is_noticed(&mut pair, at), "record {k}, word {word}");
                        changed += 1;
                    }
                }
            }
            let queues = [s.acked_queue, s.lost_queue, s.pto_queue];
            for (which, len) in queues.into_iter().enumerate() {
                for i in 0..len as usize {
                    let at = base + 1_536 + 256 * which + i;
                    assert!(is_noticed(&mut pair, at), "queue {which}, place {i}");
                    changed += 1;
                }
            }
        }
        assert!(changed > 20, "{changed}");
    }
}
