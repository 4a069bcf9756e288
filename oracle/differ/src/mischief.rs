//! Events that must be refused: a good event with one or two faults, or a packet too many.

use oracle::connection::Oracle;
use oracle::event::{Ack, Event, Flags, Packet, Status, NONE_SKIPPED};
use oracle::front::MOST_RECORDS;
use oracle::generate::random::Random;
use oracle::moment::LARGEST_TIME;

const NUMBERS: u64 = 1 << 62;

/// The events of one refused call: held ranges and their ack, or a single one.
pub fn mischief(rust: &Oracle, random: &mut Random) -> Vec<Event> {
    let spaces = rust.snapshot().spaces;
    if let Some(space) = spaces.iter().position(|s| s.records == MOST_RECORDS as u64) {
        return vec![one_too_many(rust, space as u8, random)];
    }
    match random.below(8) {
        0..=2 => vec![bad_sent(rust, random)],
        3..=5 => bad_ack(rust, random),
        6 => vec![bad_timed(rust, random)],
        _ => vec![bad_other(random)],
    }
}

/// Before the last accepted moment if there is one, or past the largest.
fn bad_now(rust: &Oracle, random: &mut Random) -> u64 {
    let last = rust.last_now();
    match random.below(2) {
        0 if last > 0 => {
            let step = random.below(3) * random.below(last) / 2;
            last - 1 - step.min(last - 1)
        }
        _ => {
            let bits = 1 + random.below(63);
            (LARGEST_TIME + 1).saturating_add(random.any() >> bits)
        }
    }
}

fn good_now(rust: &Oracle, random: &mut Random) -> u64 {
    (rust.last_now() + random.below(1_000)).min(LARGEST_TIME)
}

fn bad_space(random: &mut Random) -> u8 {
    random.between((3, 255)) as u8
}

fn status(random: &mut Random) -> Status {
    Status(random.any() as u8)
}

/// One fault, and as often as not another one: the same once more could mend it.
fn faults(random: &mut Random, kinds: u64) -> impl Iterator<Item = u64> {
    let first = random.below(kinds);
    let second = random.below(2 * kinds);
    let another = (second != first).then_some(second);
    [first].into_iter().chain(another)
}

fn one_too_many(rust: &Oracle, space: u8, random: &mut Random) -> Event {
    let packet = Packet {
        number: rust.last_sent(space).map_or(0, |n| n + 1),
        size: random.between((1, 1_200)),
        flags: Flags(random.any() as u8 | Flags::IN_FLIGHT),
        handle: random.any(),
    };
    Event::Sent {
        now: good_now(rust, random),
        space,
        packet,
        status: status(random),
    }
}

fn bad_sent(rust: &Oracle, random: &mut Random) -> Event {
    let mut space = random.below(3) as u8;
    let last = rust.last_sent(space);
    let mut now = good_now(rust, random);
    let mut packet = Packet {
        number: last.map_or(0, |n| n + 1),
        size: random.between((1, 65_527)),
        flags: Flags(7 | (random.any() as u8 & 0xf0)),
        handle: random.any(),
    };
    for fault in faults(random, 6) {
        match fault {
            0 => now = bad_now(rust, random),
            1 => space = bad_space(random),
            2 => packet.size = [0, 65_528, 65_535][random.below(3) as usize],
            3 => packet.number = NUMBERS + random.below(2) * (random.any() >> 2),
            4 => packet.flags = Flags(Flags::PROBE | (random.any() as u8 & 0xf5)),
            5 => match last {
                Some(last) => packet.number = last - last.min(random.below(3)),
                None => packet.size = 0,
            },
            _ => {}
        }
    }
    let status = status(random);
    Event::Sent {
        now,
        space,
        packet,
        status,
    }
}

fn bad_ack(rust: &Oracle, random: &mut Random) -> Vec<Event> {
    let space = random.below(3) as u8;
    let middle = rust.last_sent(space).unwrap_or(40);
    let mut from = middle.saturating_sub(random.below(60));
    let mut ranges = Vec::new();
    for _ in 0..random.between((1, 8)) {
        let end = from + random.between((1, 4));
        ranges.push((from, end));
        from = end + random.between((1, 3));
    }
    let mut now = good_now(rust, random);
    let mut ack = Ack {
        space,
        delay_micros: random.below(1_000_000),
        limited: random.in_thousand(500),
        skipped: NONE_SKIPPED,
    };
    for fault in faults(random, 8) {
        let at = random.below(ranges.len().max(1) as u64) as usize;
        match fault {
            0 => now = bad_now(rust, random),
            1 => ack.space = bad_space(random),
            2 => ack.skipped = NUMBERS + random.below(2) * (random.any() >> 2),
            3 => spoil_range(&mut ranges, at, random),
            4 => ranges.clear(),
            5 => {
                ranges = (0..random.between((65, 67)))
                    .map(|n| (3 * n, 3 * n + 2))
                    .collect()
            }
            6 => match ranges.get(at) {
                Some(range) => {
                    ack.skipped = random.between((range.0, range.1.max(range.0 + 1) - 1))
                }
                None => ack.delay_micros = u64::MAX,
            },
            7 => {
                ack.delay_micros =
                    LARGEST_TIME / 1_000 + 1 + (random.any() >> random.between((2, 63)))
            }
            _ => {}
        }
    }
    let status = status(random);
    let held = ranges.into_iter();
    let held = held.map(|(start, end)| Event::Range { start, end });
    held.chain([Event::Ack { now, ack, status }]).collect()
}

/// Empty, turned round, too high, or touching the one before.
fn spoil_range(ranges: &mut [(u64, u64)], at: usize, random: &mut Random) {
    let before = at.checked_sub(1).and_then(|at| ranges.get(at)).copied();
    let Some(range) = ranges.get_mut(at) else {
        return;
    };
    match (random.below(4), before) {
        (0, _) => range.1 = range.0,
        (1, _) => *range = (range.1, range.0),
        (2, Some(before)) => range.0 = before.1 - random.below(2).min(before.1),
        _ => range.1 = NUMBERS + 1 + random.below(2) * (random.any() >> 2),
    }
}

fn bad_timed(rust: &Oracle, random: &mut Random) -> Event {
    let (now, status) = (bad_now(rust, random), status(random));
    let space = random.below(4) as u8;
    match random.below(3) {
        0 => Event::Timeout { now, status },
        1 => Event::Discard { now, space, status },
        _ => {
            let (now, space) = (good_now(rust, random), bad_space(random));
            Event::Discard { now, space, status }
        }
    }
}

fn bad_other(random: &mut Random) -> Event {
    match random.below(4) {
        0 => Event::Size([0, 1_199, 65_528, 65_535][random.below(4) as usize]),
        1 => Event::TakeAcked(bad_space(random)),
        2 => Event::TakeLost(bad_space(random)),
        _ => Event::Ping(bad_space(random)),
    }
}

#[cfg(test)]
mod tests {
    use super::*;
    use oracle::generate::generated;
    use oracle::generate::profile::PROFILES;
    use oracle::replay::Player;
    use oracle::root::Root;

    #[test]
    fn every_mischief_is_refused_and_each_number_comes() {
        Root::Exact.choose().unwrap();
        let mut random = Random::new(1);
        let mut refused = [0; 8];
        for profile in PROFILES {
            let mut player = Player::with_defaults();
            for event in generated(profile, 3, 1_300) {
                player.play(&event);
                // Between an ack's ranges nothing else may come.
                if matches!(event, Event::Range { .. }) {
                    continue;
                }
                for _ in 0..5 {
                    let group = mischief(&player.oracle, &mut random);
                    let last = group.iter().filter_map(|event| player.play(event)).last();
                    let refusal = last.unwrap().expect_err("it must be refused");
                    refused[usize::from(refusal.number())] += 1;
                }
            }
        }
        assert!(refused[1..].iter().all(|&count| count > 0), "{refused:?}");
    }
}
