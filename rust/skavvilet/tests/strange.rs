//! Records that no run makes and arguments that no host means: a refusal or whatever answer,
//! never a crash, and a refused event changes nothing.

use std::ptr;

use skavvilet::sys::{self, Connection};

/// splitmix64
struct Random(u64);

impl Random {
    fn next(&mut self) -> u64 {
        self.0 = self.0.wrapping_add(0x9e37_79b9_7f4a_7c15);
        let mut z = self.0;
        z = (z ^ (z >> 30)).wrapping_mul(0xbf58_476d_1ce4_e5b9);
        z = (z ^ (z >> 27)).wrapping_mul(0x94d0_49bb_1331_11eb);
        z ^ (z >> 31)
    }

    fn below(&mut self, bound: u64) -> u64 {
        self.next() % bound
    }

    /// Small, near an edge of the rules, or any number.
    fn number(&mut self) -> u64 {
        const EDGES: [u64; 8] = [0, 256, 65_527, 1 << 30, 1 << 32, 1 << 53, 1 << 62, u64::MAX];
        match self.below(4) {
            0 => self.below(12),
            1 => {
                let edge = EDGES[self.below(8) as usize];
                edge.wrapping_add(self.below(5)).wrapping_sub(2)
            }
            2 => {
                let shift = self.below(64);
                self.next() >> shift
            }
            _ => self.next(),
        }
    }
}

/// Every number of a record, the last one included.
fn numbers(c: &mut Connection) -> &mut [u64] {
    let count = size_of::<Connection>() / 8;
    // SAFETY: a record is that many numbers of 8 bytes and nothing else.
    unsafe { std::slice::from_raw_parts_mut(ptr::from_mut(c).cast(), count) }
}

/// As bits, so that a float that is no number equals itself.
fn same(a: &mut Connection, b: &mut Connection) -> bool {
    numbers(a) == numbers(b)
}

/// A record between fences, which no event may touch.
#[repr(C)]
struct Fenced {
    before: [u64; FENCE],
    record: Connection,
    after: [u64; FENCE],
}

const FENCE: usize = 512;
const POST: u64 = 0x5afe_5afe_5afe_5afe;

impl Fenced {
    fn new() -> Box<Fenced> {
        Box::new(Fenced {
            before: [POST; FENCE],
            record: *Connection::unbegun(),
            after: [POST; FENCE],
        })
    }

    fn stands(&self) -> bool {
        self.before == [POST; FENCE] && self.after == [POST; FENCE]
    }
}

fn seal() -> u64 {
    let mut c = Connection::unbegun();
    assert_eq!(begin(&mut c), 0);
    c.values.seal
}

fn begin(c: &mut Connection) -> u64 {
    unsafe { sys::skavvilet_begin(c, 1_200, 10, 333_000_000, 25_000_000) }
}

const KINDS: u64 = 8;

/// One event of that kind with random arguments; answers its refusal.
fn random_event(c: &mut Connection, kind: u64, random: &mut Random) -> u64 {
    let now = match random.below(3) {
        0 => random.number(),
        _ => c.values.clock.wrapping_add(random.below(1 << 30)),
    };
    let space = random.below(3) + random.below(20) / 19;
    let (status, flags) = (random.next() as u8, random.next() as u8);
    let number = random.number();
    let size = 1 + random.below(2_000) * random.below(40);
    unsafe {
        match kind {
            0 => {
                let handle = random.number();
                sys::skavvilet_on_packet_sent(c, now, space, number, size, flags, handle, status)
            }
            1 => random_ack(c, now, space, status, random),
            2 => sys::skavvilet_on_loss_detection_timeout(c, now, status).refusal,
            3 => sys::skavvilet_on_pkt_num_space_discarded(c, now, space, status),
            4 => sys::skavvilet_pmtud_update_max_datagram_size(c, size),
            5 => sys::skavvilet_next_acked_frame(c, space).refusal,
            6 => sys::skavvilet_next_lost_frame(c, space).refusal,
            _ => sys::skavvilet_ping_sent(c, space),
        }
    }
}

/// Ranges that are mostly as they should be, else any words, up to 140 of them.
fn random_ack(c: &mut Connection, now: u64, space: u64, status: u8, random: &mut Random) -> u64 {
    let mut words: Vec<u64> = (0..random.below(140)).map(|_| random.number()).collect();
    let mut delay = random.number();
    let mut skipped = random.number();
    if random.below(4) > 0 {
        words.iter_mut().for_each(|word| *word >>= 2);
        words.sort_unstable();
        words.dedup();
        words.truncate((words.len() / 2 * 2).min(2 * sys::MOST_RANGES));
        delay >>= 22;
        skipped = sys::NONE_SKIPPED;
    }
    let (limited, start, len) = (random.next() as u8, words.as_ptr(), words.len());
    let answer = unsafe {
        sys::skavvilet_on_ack_received(c, now, space, start, len, delay, status, limited, skipped)
    };
    let beside = [
        answer.lost_packets,
        answer.lost_bytes,
        answer.acked_bytes,
        answer.spurious_losses,
    ];
    assert!(answer.refusal == 0 || beside == [0; 4]);
    answer.refusal
}

/// Random events on a record; each refused one must leave it alone. Answers how many were
/// accepted, kind by kind.
fn beset(c: &mut Connection, events: u64, random: &mut Random) -> [u64; KINDS as usize] {
    let mut accepted = [0; KINDS as usize];
    for _ in 0..events {
        let mut before = c.clone();
        let kind = random.below(KINDS);
        let refusal = random_event(c, kind, random);
        assert!(refusal <= 7);
        unsafe { sys::skavvilet_readouts(c.values) };
        if refusal == 0 {
            accepted[kind as usize] += 1;
        } else {
            assert!(same(c, &mut before), "kind {kind} refused with {refusal}");
        }
    }
    accepted
}

#[test]
fn zeroed_record_refuses_every_event_with_2_and_stays() {
    let mut random = Random(1);
    let mut c = Connection::unbegun();
    for kind in 0..KINDS {
        assert_eq!(random_event(&mut c, kind, &mut random), 2, "kind {kind}");
    }
    assert!(same(&mut c, &mut Connection::unbegun()));
}

#[test]
fn random_bytes_refuse_every_event_with_2_and_stay() {
    let mut random = Random(2);
    for _ in 0..50 {
        let mut c = Connection::unbegun();
        numbers(&mut c).fill_with(|| random.next());
        let mut before = c.clone();
        for kind in 0..KINDS {
            assert_eq!(random_event(&mut c, kind, &mut random), 2, "kind {kind}");
            unsafe { sys::skavvilet_readouts(c.values) };
        }
        assert!(same(&mut c, &mut before));
    }
}

#[test]
fn any_record_can_be_begun_and_all_begin_alike() {
    let mut random = Random(3);
    let mut fresh = Connection::unbegun();
    begin(&mut fresh);
    for _ in 0..50 {
        let mut c = Connection::unbegun();
        numbers(&mut c).fill_with(|| random.next());
        assert_eq!(begin(&mut c), 0);
        // The words may keep what stood there: nothing of them is held.
        assert!(c.values == fresh.values);
    }
}

#[test]
fn settings_outside_their_ranges_are_refused_and_the_record_stays() {
    let mut random = Random(4);
    let refused = [
        (1_199, 10, 1_000_000, 0),
        (65_528, 10, 1_000_000, 0),
        (1_200, 1, 1_000_000, 0),
        (1_200, 101, 1_000_000, 0),
        (1_200, 10, 999_999, 0),
        (1_200, 10, 10_000_000_001, 0),
        (1_200, 10, 1_000_000, 16_383_000_001),
        (u64::MAX, u64::MAX, u64::MAX, u64::MAX),
    ];
    let mut c = Connection::unbegun();
    numbers(&mut c).fill_with(|| random.next());
    let mut before = c.clone();
    for (size, packets, rtt, delay) in refused {
        let refusal = unsafe { sys::skavvilet_begin(&mut *c, size, packets, rtt, delay) };
        assert_eq!(refusal, 2);
        assert!(same(&mut c, &mut before));
    }
    let accepted = [
        (1_200, 2, 1_000_000, 0),
        (65_527, 100, 10_000_000_000, 16_383_000_000),
    ];
    for (size, packets, rtt, delay) in accepted {
        let refusal = unsafe { sys::skavvilet_begin(&mut *c, size, packets, rtt, delay) };
        assert_eq!(refusal, 0);
    }
}

#[test]
fn no_ranges_at_a_null_pointer_are_refused_with_4() {
    let mut c = Connection::unbegun();
    begin(&mut c);
    let mut before = c.clone();
    let none = sys::NONE_SKIPPED;
    let answer =
        unsafe { sys::skavvilet_on_ack_received(&mut *c, 0, 2, ptr::null(), 0, 0, 7, 0, none) };
    assert_eq!(answer.refusal, 4);
    assert!(same(&mut c, &mut before));
}

/// Thousands of events on records of random numbers that bear the seal.
#[test]
fn random_numbers_with_the_seal_never_crash() {
    let seal = seal();
    let mut random = Random(5);
    let mut accepted = [0; KINDS as usize];
    for _ in 0..120 {
        let mut fenced = Fenced::new();
        let c = &mut fenced.record;
        numbers(c).fill_with(|| random.number());
        c.values.seal = seal;
        // Else nearly every event would be refused for its clock.
        c.values.clock >>= 11;
        let here = beset(c, 60, &mut random);
        accepted.iter_mut().zip(here).for_each(|(all, n)| *all += n);
        assert_eq!(c.values.seal, seal);
        assert!(fenced.stands());
    }
    let taken: u64 = accepted.iter().sum();
    assert!(taken > 1_000, "{accepted:?}");
}

/// A run as a host makes it, with a number here and there changed on the way.
#[test]
fn damaged_runs_never_crash() {
    let seal = seal();
    let mut random = Random(6);
    let mut accepted = [0; KINDS as usize];
    for _ in 0..60 {
        let mut c = Connection::unbegun();
        begin(&mut c);
        for number in 0..random.below(300) {
            let (now, handle) = (number * 1_000, random.next());
            unsafe { sys::skavvilet_on_packet_sent(&mut *c, now, 2, number, 1_200, 7, handle, 7) };
        }
        for _ in 0..4 {
            let count = size_of::<Connection>() / 8;
            let values = count - size_of::<sys::Values>() / 8;
            for _ in 0..6 {
                let at = match random.below(2) {
                    0 => random.below(count as u64) as usize,
                    _ => values + random.below((count - values) as u64) as usize,
                };
                numbers(&mut c)[at] = random.number();
            }
            c.values.seal = seal;
            let here = beset(&mut c, 40, &mut random);
            accepted.iter_mut().zip(here).for_each(|(all, n)| *all += n);
        }
    }
    assert!(accepted.iter().all(|&n| n > 50), "{accepted:?}");
}
