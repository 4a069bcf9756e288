//! Our library behind the oracle's events, and its record read as the oracle's snapshot.

use oracle::connection::Answer;
use oracle::event::Event;
use oracle::settings::Settings;
use oracle::snapshot::{
    CheckpointSnapshot, CubicSnapshot, Queues, Record, RttSnapshot, Snapshot, SpaceSnapshot,
};
use oracle::trace::HeldRanges;
use skavvilet::sys::{self, Connection, NumberValue, SpaceValues, TimeValue};

/// Words of a space, where its queues begin, and words of a record (records/specs/View.antt).
const SPACE_WORDS: usize = 9 * sys::CAPACITY;
const QUEUES: usize = 6 * sys::CAPACITY;
const RECORD_WORDS: usize = 6;

/// A refusal's number, 0 for accepted, and the answer beside it, zeros beside a refusal.
#[derive(Clone, Copy, Debug, PartialEq, Eq)]
pub struct Told {
    pub refusal: u64,
    pub answer: Answer,
}

/// What every event of its kind answers beside a refusal.
pub fn nothing_told(event: &Event) -> Answer {
    match event {
        Event::Ack { .. } => Answer::Acked {
            lost_packets: 0,
            lost_bytes: 0,
            acked_bytes: 0,
            spurious: 0,
        },
        Event::Timeout { .. } => Answer::TimedOut {
            lost_packets: 0,
            lost_bytes: 0,
        },
        Event::TakeAcked(_) | Event::TakeLost(_) => Answer::Handle(0),
        _ => Answer::Nothing,
    }
}

#[derive(Clone)]
pub struct Ours {
    connection: Box<Connection>,
    held: HeldRanges,
}

impl Ours {
    /// The refusal's number for settings outside their ranges.
    pub fn new(settings: &Settings) -> Result<Ours, u64> {
        let mut connection = Connection::unbegun();
        // SAFETY: a whole record, and ours alone; so in every call below.
        let refusal = unsafe {
            sys::skavvilet_begin(
                &mut *connection,
                settings.datagram_size,
                settings.initial_packets,
                settings.initial_rtt,
                settings.max_ack_delay,
            )
        };
        let held = HeldRanges::default();
        match refusal {
            0 => Ok(Ours { connection, held }),
            _ => Err(refusal),
        }
    }

    /// What was told, or None for a range, which is only held.
    pub fn play(&mut self, event: &Event) -> Option<Told> {
        if let Event::Range { start, end } = event {
            self.held.hold(*start, *end);
            return None;
        }
        let told = call(&mut self.connection, event, self.held.words());
        if matches!(event, Event::Ack { .. }) {
            self.held.empty();
        }
        Some(told)
    }

    pub fn connection(&self) -> &Connection {
        &self.connection
    }

    /// Every number of the record, floats as bits.
    pub fn numbers(&self) -> &[u64] {
        let count = size_of::<Connection>() / 8;
        let start = std::ptr::from_ref(&*self.connection).cast();
        // SAFETY: a record is that many numbers of 8 bytes and nothing else.
        unsafe { std::slice::from_raw_parts(start, count) }
    }

    #[cfg(test)]
    pub fn numbers_mut(&mut self) -> &mut [u64] {
        let count = size_of::<Connection>() / 8;
        let start = std::ptr::from_mut(&mut *self.connection).cast();
        // SAFETY: as above.
        unsafe { std::slice::from_raw_parts_mut(start, count) }
    }

    #[cfg(test)]
    pub fn head(&self, space: u8) -> usize {
        self.space(space).head as usize
    }

    fn space(&self, space: u8) -> &SpaceValues {
        let v = &self.connection.values;
        match space {
            0 => &v.initial,
            1 => &v.handshake,
            _ => &v.application,
        }
    }

    /// All that the oracle's snapshot has. What we don't hold, the app-limited flag and the
    /// count of records neither acked nor lost, is taken from `rust`.
    pub fn snapshot(&self, rust: &Snapshot) -> Snapshot {
        let v = &self.connection.values;
        let g = &v.congestion;
        // SAFETY: by value.
        let readouts = unsafe { sys::skavvilet_readouts(*v) };
        let sampled = v.rtt.has_first_rtt_sample != 0;
        let pto_fits = readouts.pto_is_too_large == 0;
        Snapshot {
            rtt: RttSnapshot {
                latest: v.rtt.latest_rtt,
                smoothed: v.rtt.smoothed_rtt,
                rttvar: v.rtt.rttvar,
                min: v.rtt.min_rtt,
                max: sampled.then_some(v.rtt.max_rtt),
                has_sample: sampled,
                pto: if pto_fits { readouts.pto } else { u64::MAX },
            },
            timer: v.loss_timer.get(),
            pto_count: u32::try_from(v.pto_count).unwrap_or(u32::MAX),
            packet_threshold: v.pkt_thresh,
            time_threshold: if v.time_thresh == 0 { 1.125f64 } else { 1.25 }.to_bits(),
            spurious_count: v.lost_spurious_count,
            lost_count: g.lost_count,
            non_eliciting_run: v.outstanding_non_ack_eliciting,
            in_flight: v.bytes_in_flight,
            datagram_size: v.max_datagram_size,
            window: g.congestion_window,
            available: readouts.cwnd_available,
            threshold: g.ssthresh,
            slow_start_bytes: g.bytes_acked_sl,
            recovery_start: g.congestion_recovery_start_time.get(),
            app_limited: rust.app_limited,
            cubic: CubicSnapshot {
                w_max: g.cubic.w_max.to_bits(),
                k: g.cubic.k.to_bits(),
                w_est: g.cubic.w_est.to_bits(),
                alpha: g.cubic.alpha_aimd.to_bits(),
                cwnd_inc: g.cubic.cwnd_inc,
            },
            checkpoint: CheckpointSnapshot {
                window: g.prior.congestion_window,
                threshold: g.prior.ssthresh,
                w_max: g.prior.w_max.to_bits(),
                k: g.prior.k.to_bits(),
                recovery_start: g.prior.epoch_start.get(),
                lost_count: g.prior.lost_count,
            },
            spaces: [0, 1, 2].map(|n| {
                let elicits_ack = readouts.should_elicit_ack[usize::from(n)] != 0;
                let outstanding = rust.spaces[usize::from(n)].outstanding;
                self.space_snapshot(n, elicits_ack, outstanding)
            }),
        }
    }

    fn space_snapshot(&self, space: u8, elicits_ack: bool, outstanding: u64) -> SpaceSnapshot {
        let s = self.space(space);
        SpaceSnapshot {
            last_eliciting: s.time_of_last_ack_eliciting_packet.get(),
            largest_acked: s.largest_acked_packet.get(),
            loss_time: s.loss_time.get(),
            probes: s.loss_probes,
            in_flight_count: s.in_flight_count,
            records: s.len,
            outstanding,
            acked_queue: s.acked,
            lost_queue: s.lost_ack,
            pto_queue: s.lost_pto,
            elicits_ack,
        }
    }

    pub fn last_sent(&self, space: u8) -> Option<u64> {
        self.space(space).largest_sent_packet.get()
    }

    /// The records of one space, oldest first. Only whether a record is acked is known, not
    /// when: 0 stands for any time.
    pub fn records(&self, space: u8) -> Vec<Record> {
        let s = self.space(space);
        let base = SPACE_WORDS * usize::from(space);
        let count = s.len.min(sys::CAPACITY as u64);
        let read = (0..count).map(|i| {
            let slot = s.head.wrapping_add(i) as usize % sys::CAPACITY;
            let at = base + RECORD_WORDS * slot;
            record(&self.connection.words[at..at + RECORD_WORDS])
        });
        read.collect()
    }

    pub fn queues(&self, space: u8) -> Queues {
        let s = self.space(space);
        let queue = |which: usize, len: u64| {
            let at = SPACE_WORDS * usize::from(space) + QUEUES + sys::CAPACITY * which;
            let len = len.min(sys::CAPACITY as u64) as usize;
            self.connection.words[at..at + len].to_vec()
        };
        Queues {
            acked: queue(0, s.acked),
            lost: queue(1, s.lost_ack),
            pto: queue(2, s.lost_pto),
        }
    }

    pub fn has_lost_frames(&self) -> [bool; 3] {
        // SAFETY: by value.
        let readouts = unsafe { sys::skavvilet_readouts(self.connection.values) };
        readouts.has_lost_frames.map(|word| word != 0)
    }

    /// Whether each time and number that may be unset is written in its one way: 0 and 0, or
    /// 1 and the value.
    pub fn is_written_plainly(&self) -> bool {
        let v = &self.connection.values;
        let g = &v.congestion;
        let mut times = vec![
            v.loss_timer,
            g.congestion_recovery_start_time,
            g.prior.epoch_start,
        ];
        let mut numbers = Vec::new();
        for space in 0..3 {
            let s = self.space(space);
            times.extend([s.time_of_last_ack_eliciting_packet, s.loss_time]);
            numbers.extend([s.largest_acked_packet, s.largest_sent_packet]);
        }
        let plain_time = |t: &TimeValue| t.set == 1 || (t.set == 0 && t.ns == 0);
        let plain_number = |n: &NumberValue| n.set == 1 || (n.set == 0 && n.number == 0);
        times.iter().all(plain_time)
            && numbers.iter().all(plain_number)
            && v.time_thresh <= 1
            && v.rtt.has_first_rtt_sample <= 1
    }
}

fn record(words: &[u64]) -> Record {
    let &[number, sent, size, flags, handle, mark] = words else {
        unreachable!("a record has six words");
    };
    let flag = |bit: u64| flags & bit != 0;
    Record {
        number,
        sent,
        acked: (mark % 2 == 1).then_some(0),
        lost: (mark / 2).checked_sub(1),
        size,
        eliciting: flag(1),
        in_flight: flag(2),
        data: flag(4),
        probe: flag(8),
        // Once queued a handle means nothing here; the Rust takes it out.
        handle: if mark == 0 { handle } else { 0 },
    }
}

/// One call of the library, for any event but a range.
#[inline]
pub fn call(c: &mut Connection, event: &Event, ranges: &[u64]) -> Told {
    let plain = |refusal| Told {
        refusal,
        answer: Answer::Nothing,
    };
    let taken = |taken: sys::TakeAnswer| Told {
        refusal: taken.refusal,
        answer: Answer::Handle(taken.handle),
    };
    // SAFETY: a whole record, ours alone, and as many words as are said to stand there.
    unsafe {
        match event {
            Event::Range { .. } => unreachable!("a range is held"),
            Event::Sent {
                now,
                space,
                packet: p,
                status,
            } => {
                let (space, flags) = (u64::from(*space), p.flags.0);
                plain(sys::skavvilet_on_packet_sent(
                    c, *now, space, p.number, p.size, flags, p.handle, status.0,
                ))
            }
            Event::Ack { now, ack, status } => {
                let space = u64::from(ack.space);
                let (start, len) = (ranges.as_ptr(), ranges.len());
                let (delay, limited) = (ack.delay_micros, u8::from(ack.limited));
                let told = sys::skavvilet_on_ack_received(
                    c,
                    *now,
                    space,
                    start,
                    len,
                    delay,
                    status.0,
                    limited,
                    ack.skipped,
                );
                Told {
                    refusal: told.refusal,
                    answer: Answer::Acked {
                        lost_packets: told.lost_packets,
                        lost_bytes: told.lost_bytes,
                        acked_bytes: told.acked_bytes,
                        spurious: told.spurious_losses,
                    },
                }
            }
            Event::Timeout { now, status } => {
                let told = sys::skavvilet_on_loss_detection_timeout(c, *now, status.0);
                Told {
                    refusal: told.refusal,
                    answer: Answer::TimedOut {
                        lost_packets: told.lost_packets,
                        lost_bytes: told.lost_bytes,
                    },
                }
            }
            Event::Discard { now, space, status } => {
                let space = u64::from(*space);
                plain(sys::skavvilet_on_pkt_num_space_discarded(
                    c, *now, space, status.0,
                ))
            }
            Event::Size(size) => plain(sys::skavvilet_pmtud_update_max_datagram_size(c, *size)),
            Event::TakeAcked(space) => taken(sys::skavvilet_next_acked_frame(c, u64::from(*space))),
            Event::TakeLost(space) => taken(sys::skavvilet_next_lost_frame(c, u64::from(*space))),
            Event::Ping(space) => plain(sys::skavvilet_ping_sent(c, u64::from(*space))),
        }
    }
}
