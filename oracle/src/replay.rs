//! Replays a trace and prints 01's lines.

use crate::connection::{Answer, Oracle, Outcome};
use crate::event::Event;
use crate::inspect;
use crate::settings::Settings;
use crate::snapshot::or_dash;
use crate::trace::{BadAt, HeldRanges, Reader, LONGEST_TRACE};

/// An oracle that is fed a trace's events one by one.
#[derive(Clone)]
pub struct Player {
    pub oracle: Oracle,
    held: HeldRanges,
}

impl Player {
    pub fn new(oracle: Oracle) -> Self {
        Player {
            oracle,
            held: HeldRanges::default(),
        }
    }

    /// The player that 01's replay starts with.
    pub fn with_defaults() -> Self {
        let oracle = Oracle::new(Settings::default());
        Player::new(oracle.expect("01's own settings are in range"))
    }

    /// The outcome, or None for a range, which is only held.
    pub fn play(&mut self, event: &Event) -> Option<Outcome> {
        let oracle = &mut self.oracle;
        Some(match event {
            Event::Range { start, end } => {
                self.held.hold(*start, *end);
                return None;
            }
            Event::Sent {
                now,
                space,
                packet,
                status,
            } => oracle.on_packet_sent(*now, *space, packet, *status),
            Event::Ack { now, ack, status } => {
                let outcome = oracle.on_ack_received(*now, ack, self.held.words(), *status);
                // A refused ack empties them too: they are the replay's own.
                self.held.empty();
                outcome
            }
            Event::Timeout { now, status } => oracle.on_loss_detection_timeout(*now, *status),
            Event::Discard { now, space, status } => {
                oracle.on_pkt_num_space_discarded(*now, *space, *status)
            }
            Event::Size(size) => oracle.on_size_change(*size),
            Event::TakeAcked(space) => oracle.take_acked(*space),
            Event::TakeLost(space) => oracle.take_lost(*space),
            Event::Ping(space) => oracle.ping_sent(*space),
        })
    }

    /// 01's line after an event: kind, refusal, window, in flight, timer or `-`.
    pub fn line(&self, event: &Event, outcome: &Outcome) -> String {
        format!(
            "{} {} {} {} {}",
            event.kind(),
            outcome.map_or_else(|refusal| refusal.number(), |_| 0),
            self.oracle.window(),
            self.oracle.in_flight(),
            or_dash(self.oracle.timer()),
        )
    }
}

/// What a replay prints after each event.
#[derive(Clone, Copy, Debug, PartialEq, Eq)]
pub enum Print {
    /// 01's lines.
    Lines,
    /// And, below each line, the answer and everything the oracle holds.
    All,
    /// And, behind each line, the words of program `inspect`.
    Inspected,
}

fn answer_line(outcome: &Outcome) -> String {
    match outcome {
        Err(refusal) => format!("  refused {}\n", refusal.number()),
        Ok(Answer::Nothing) => String::new(),
        Ok(Answer::Handle(handle)) => format!("  answer handle={handle}\n"),
        Ok(Answer::TimedOut {
            lost_packets,
            lost_bytes,
        }) => format!("  answer lost_packets={lost_packets} lost_bytes={lost_bytes}\n"),
        Ok(Answer::Acked {
            lost_packets,
            lost_bytes,
            acked_bytes,
            spurious,
        }) => format!(
            "  answer lost_packets={lost_packets} lost_bytes={lost_bytes} \
             acked_bytes={acked_bytes} spurious={spurious}\n"
        ),
    }
}

/// Everything a replay of this trace prints. The thread's root must be chosen.
pub fn replayed(trace: &[u8], print: Print) -> String {
    if trace.len() > LONGEST_TRACE {
        return "too long\n".to_string();
    }
    let mut player = Player::with_defaults();
    let mut out = String::new();
    let mut accepted = 0;
    for event in Reader::new(trace) {
        let event = match event {
            Ok(event) => event,
            Err(BadAt(offset)) => return out + &format!("bad at {offset}\n"),
        };
        let Some(outcome) = player.play(&event) else {
            continue;
        };
        accepted += u64::from(outcome.is_ok());
        out.push_str(&player.line(&event, &outcome));
        if print == Print::Inspected {
            out.push_str(&inspect::words(&outcome, &player.oracle.snapshot()));
        }
        out.push('\n');
        if print == Print::All {
            out.push_str(&answer_line(&outcome));
            out.push_str(&player.oracle.snapshot().to_string());
        }
    }
    out + &format!("end {accepted}\n")
}

#[cfg(test)]
mod tests {
    use super::*;
    use crate::cases;
    use crate::root::Root;

    fn lines_of(case: &str) -> String {
        Root::Exact.choose().unwrap();
        let case = cases::named(case).unwrap();
        replayed(&(case.trace)(), Print::Lines)
    }

    #[test]
    fn whole_output_rehearsal_of_01_is_printed_exactly() {
        let wanted = "1 0 12000 1200 1024000000\n3 0 13200 0 -\nend 2\n";
        assert_eq!(lines_of("whole_output_rehearsal_of_01"), wanted);
    }

    #[test]
    fn one_byte_over_the_longest_trace_prints_only_too_long() {
        assert_eq!(
            lines_of("trace_of_65537_bytes_prints_only_too_long"),
            "too long\n"
        );
    }
}
