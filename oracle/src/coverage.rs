//! Counts what a trace has covered.

use quiche::recovery::congestion::cubic::observed::{take_notes, Noted};

use crate::connection::{Answer, Outcome};
use crate::event::Event;
use crate::front::MOST_RECORDS;
use crate::replay::Player;
use crate::settings::{Settings, NANOS_PER_MILLI};
use crate::snapshot::{Record, Snapshot};

macro_rules! things {
    ($($thing:ident: $says:literal,)*) => {
        /// One thing that a trace can cover.
        #[derive(Clone, Copy, Debug, PartialEq, Eq)]
        pub enum Thing {
            $($thing,)*
        }

        /// Every thing, in the order of the table.
        pub const THINGS: &[Thing] = &[$(Thing::$thing,)*];

        impl Thing {
            pub fn says(self) -> &'static str {
                match self {
                    $(Thing::$thing => $says,)*
                }
            }

            pub fn named(name: &str) -> Option<Thing> {
                match name {
                    $(stringify!($thing) => Some(Thing::$thing),)*
                    _ => None,
                }
            }
        }
    };
}

things! {
    RollbackOnAck: "rollback done: few lost, on an ack",
    RollbackOnSpurious: "rollback done: spurious loss",
    TurnedDownSlowStart: "rollback turned down: checkpoint below its threshold",
    TurnedDownWindow: "rollback turned down: window not below checkpoint's",
    TooManyLost: "rollback not tried: too many lost",
    RollbackThenPeriod: "rollback and new period in one event",
    Period: "recovery period begun",
    LossInsidePeriod: "loss inside a period",
    FastConvergence: "fast convergence",
    MinimumWindow: "minimum window",
    AckedInRecovery: "packet acked in recovery",
    AckedAppLimited: "packet acked while app-limited",
    SlowStart: "slow-start growth",
    Friendly: "friendly growth",
    Concave: "concave growth",
    Convex: "convex growth",
    SpuriousLoss: "spurious loss",
    ThresholdGrew: "packet threshold grew",
    LossTimeout: "timeout by loss time",
    PtoTimeout: "timeout by PTO",
    PtoInARow: "three PTOs in a row",
    EarlyTimeout: "timeout before the timer",
    PtoHandle: "PTO queued a handle",
    ProbeTaken: "ping took a probe",
    PmtudSent: "PMTUD probe sent",
    PmtudLost: "PMTUD probe lost",
    PmtudAcked: "PMTUD probe acked",
    Discard: "space discarded",
    DiscardInFlight: "space discarded with packets in flight",
    SizeMovesWindow: "size change moves the window",
    SizeKeepsWindow: "size change keeps the window",
    NotEliciting: "packet sent that elicits nothing",
    NotInFlight: "packet sent not in flight",
    RunElicitsAck: "24 in a row elicit an ack",
    NotInFlightLost: "packet not in flight lost",
    Over32Ranges: "ack of over 32 ranges",
    Exactly64Ranges: "ack of 64 ranges",
    NothingNew: "ack of nothing new",
    DelayCapped: "ack delay capped",
    DelayTaken: "ack delay taken off the sample",
    DelayImplausible: "ack delay implausible",
    GranularDelay: "loss delay below the granularity",
    HugeSample: "RTT sample over 1 s",
    Burst: "16 packets sent at one moment",
    FullRing: "256 records in a space",
    AckedHandle: "acked handle taken",
    LostHandle: "lost handle taken",
    EmptyQueue: "handle 0 from an empty queue",
    UnsetLossTimeWins: "an unset loss time hides a set one",
    NoTimerInFlight: "packets in flight, yet no timer",
    IdleTimer: "timer with nothing in flight",
}

/// How often each thing was covered.
#[derive(Clone, Debug)]
pub struct Counts(Vec<u64>);

impl Default for Counts {
    fn default() -> Self {
        Counts(vec![0; THINGS.len()])
    }
}

impl Counts {
    pub fn of(&self, thing: Thing) -> u64 {
        self.0[thing as usize]
    }

    pub fn add(&mut self, other: &Counts) {
        for (mine, theirs) in self.0.iter_mut().zip(&other.0) {
            *mine += theirs;
        }
    }

    fn count(&mut self, thing: Thing, times: u64) {
        self.0[thing as usize] += times;
    }

    fn count_if(&mut self, covered: bool, thing: Thing) {
        self.count(thing, u64::from(covered));
    }
}

/// An accepted event with the states around it.
struct Step<'a> {
    event: &'a Event,
    answer: Answer,
    ranges: u64,
    before: &'a Snapshot,
    after: &'a Snapshot,
    records_before: [Vec<Record>; 3],
    records_after: [Vec<Record>; 3],
}

/// Plays events and counts what they cover.
pub struct Observer {
    player: Player,
    counts: Counts,
    ranges: u64,
    burst: (u64, u64),
}

impl Default for Observer {
    fn default() -> Self {
        let mut player = Player::with_defaults();
        player.oracle.observe();
        take_notes();
        Observer {
            player,
            counts: Counts::default(),
            ranges: 0,
            burst: (0, 0),
        }
    }
}

/// What these events cover. The thread's root must be chosen.
pub fn covered(events: &[Event]) -> Counts {
    let mut observer = Observer::default();
    events.iter().for_each(|event| observer.watch(event));
    observer.counts
}

impl Observer {
    fn records(&self) -> [Vec<Record>; 3] {
        [0, 1, 2].map(|space| self.player.oracle.records(space))
    }

    fn watch(&mut self, event: &Event) {
        let before = self.player.oracle.snapshot();
        let records_before = self.records();
        let outcome: Outcome = match self.player.play(event) {
            Some(outcome) => outcome,
            None => {
                self.ranges += 1;
                return;
            }
        };
        let ranges = std::mem::take(&mut self.ranges);
        self.count_notes(&take_notes());
        let Ok(answer) = outcome else {
            return;
        };
        let after = self.player.oracle.snapshot();
        let records_after = self.records();
        let step = Step {
            event,
            answer,
            ranges,
            before: &before,
            after: &after,
            records_before,
            records_after,
        };
        match event {
            Event::Sent { .. } => self.count_sent(&step),
            Event::Ack { .. } => self.count_ack(&step),
            Event::Timeout { .. } => self.count_timeout(&step),
            _ => self.count_other(&step),
        }
        self.count_timer(&step);
        self.count_lost_records(&step);
    }

    fn count_notes(&mut self, notes: &[Noted]) {
        for note in notes {
            let thing = match note {
                Noted::PeriodBegun => Thing::Period,
                Noted::LossInsidePeriod => Thing::LossInsidePeriod,
                Noted::FastConvergence => Thing::FastConvergence,
                Noted::MinimumWindow => Thing::MinimumWindow,
                Noted::RollbackOnAck => Thing::RollbackOnAck,
                Noted::RollbackOnSpurious => Thing::RollbackOnSpurious,
                Noted::RollbackFromSlowStartTurnedDown => Thing::TurnedDownSlowStart,
                Noted::RollbackOfLargerWindowTurnedDown => Thing::TurnedDownWindow,
                Noted::TooManyLostToRollBack => Thing::TooManyLost,
                Noted::AckedInRecovery => Thing::AckedInRecovery,
                Noted::AckedAppLimited => Thing::AckedAppLimited,
                Noted::SlowStartGrowth => Thing::SlowStart,
                Noted::FriendlyGrowth => Thing::Friendly,
                Noted::ConcaveGrowth => Thing::Concave,
                Noted::ConvexGrowth => Thing::Convex,
            };
            self.counts.count(thing, 1);
        }
        let both =
            notes.contains(&Noted::RollbackOnSpurious) && notes.contains(&Noted::PeriodBegun);
        self.counts.count_if(both, Thing::RollbackThenPeriod);
    }

    fn count_sent(&mut self, step: &Step) {
        let Event::Sent { now, packet, .. } = step.event else {
            return;
        };
        let sent_before = if self.burst.0 == *now {
            self.burst.1
        } else {
            0
        };
        self.burst = (*now, sent_before + 1);
        let flags = packet.flags;
        let run_before = step.before.non_eliciting_run;
        let elicits = step.after.spaces.iter().all(|s| s.elicits_ack);
        let counts = &mut self.counts;
        counts.count_if(self.burst.1 == 16, Thing::Burst);
        counts.count_if(!flags.eliciting(), Thing::NotEliciting);
        counts.count_if(!flags.in_flight(), Thing::NotInFlight);
        counts.count_if(flags.probe(), Thing::PmtudSent);
        counts.count_if(elicits && run_before == 23, Thing::RunElicitsAck);
        let full = |s: &Snapshot| s.spaces.iter().any(|s| s.records == MOST_RECORDS as u64);
        counts.count_if(full(step.after) && !full(step.before), Thing::FullRing);
    }

    fn count_ack(&mut self, step: &Step) {
        let Event::Ack { ack, status, .. } = step.event else {
            return;
        };
        let space = usize::from(ack.space);
        let (before, after) = (step.before, step.after);
        let counts = &mut self.counts;
        let spurious = after.spurious_count - before.spurious_count;
        let new = before.spaces[space].outstanding != after.spaces[space].outstanding;
        counts.count(Thing::SpuriousLoss, spurious);
        let grew = after.packet_threshold > before.packet_threshold;
        counts.count_if(grew, Thing::ThresholdGrew);
        counts.count_if(step.ranges > 32, Thing::Over32Ranges);
        counts.count_if(step.ranges == 64, Thing::Exactly64Ranges);
        counts.count_if(!new, Thing::NothingNew);
        let delay_unrounded = after.rtt.larger() as f64 * f64::from_bits(after.time_threshold);
        let granular = new && delay_unrounded < NANOS_PER_MILLI as f64;
        counts.count_if(granular, Thing::GranularDelay);
        if before.rtt == after.rtt {
            return;
        }
        counts.count_if(
            after.rtt.latest > 1_000 * NANOS_PER_MILLI,
            Thing::HugeSample,
        );
        if before.rtt.has_sample {
            let most = Settings::default().max_ack_delay;
            let given = ack.delay_micros * 1_000;
            let capped = status.completed() && given > most;
            let delay = if capped { most } else { given };
            let plausible = after.rtt.latest >= after.rtt.min + delay;
            counts.count_if(capped, Thing::DelayCapped);
            counts.count_if(delay > 0 && plausible, Thing::DelayTaken);
            counts.count_if(!plausible, Thing::DelayImplausible);
        }
    }

    fn count_timeout(&mut self, step: &Step) {
        let (before, after) = (step.before, step.after);
        let by_pto = after.pto_count > before.pto_count;
        let handles = |s: &Snapshot| s.spaces.iter().map(|s| s.pto_queue).sum::<u64>();
        let counts = &mut self.counts;
        counts.count_if(!by_pto, Thing::LossTimeout);
        counts.count_if(by_pto, Thing::PtoTimeout);
        counts.count_if(by_pto && after.pto_count >= 3, Thing::PtoInARow);
        let early = before.timer.is_none_or(|t| step.event.now() < Some(t));
        counts.count_if(early, Thing::EarlyTimeout);
        counts.count(Thing::PtoHandle, handles(after) - handles(before));
    }

    fn count_other(&mut self, step: &Step) {
        let (before, after) = (step.before, step.after);
        let counts = &mut self.counts;
        let taken = match step.answer {
            Answer::Handle(handle) => handle != 0,
            _ => false,
        };
        match step.event {
            Event::Discard { .. } => {
                counts.count(Thing::Discard, 1);
                counts.count_if(after.in_flight < before.in_flight, Thing::DiscardInFlight);
            }
            Event::Size(_) if after.window != before.window => {
                counts.count(Thing::SizeMovesWindow, 1);
            }
            Event::Size(_) => counts.count(Thing::SizeKeepsWindow, 1),
            Event::Ping(space) => {
                let probes = before.spaces[usize::from(*space)].probes;
                counts.count_if(probes > 0, Thing::ProbeTaken);
            }
            Event::TakeAcked(_) if taken => counts.count(Thing::AckedHandle, 1),
            Event::TakeLost(_) if taken => counts.count(Thing::LostHandle, 1),
            _ => counts.count(Thing::EmptyQueue, 1),
        }
    }

    fn count_timer(&mut self, step: &Step) {
        let after = step.after;
        let earlier = &after.spaces[..2];
        let hidden = earlier.iter().any(|s| s.loss_time.is_some())
            && after.timer != after.spaces.iter().filter_map(|s| s.loss_time).min();
        self.counts.count_if(hidden, Thing::UnsetLossTimeWins);
        let counts = &mut self.counts;
        let silent = after.in_flight > 0 && after.timer.is_none();
        counts.count_if(silent, Thing::NoTimerInFlight);
        let idle = after.in_flight == 0 && after.timer.is_some();
        counts.count_if(idle, Thing::IdleTimer);
    }

    fn count_lost_records(&mut self, step: &Step) {
        for (old, new) in step.records_before.iter().zip(&step.records_after) {
            for record in old {
                let open = record.acked.is_none() && record.lost.is_none();
                let now = new.iter().find(|r| r.number == record.number);
                let lost = open && now.is_some_and(|r| r.lost.is_some());
                let acked = open && !lost && now.is_none_or(|r| r.acked.is_some());
                let discarded = matches!(step.event, Event::Discard { .. });
                let counts = &mut self.counts;
                counts.count_if(lost && record.probe, Thing::PmtudLost);
                counts.count_if(lost && !record.in_flight, Thing::NotInFlightLost);
                counts.count_if(acked && record.probe && !discarded, Thing::PmtudAcked);
            }
        }
    }
}
