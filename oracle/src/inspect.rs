//! The words that program `inspect` prints after an event's line: answers, estimates, CUBIC,
//! counts and each space, as `name=value`. Unset is `-`, a float is its bits in hexadecimal.

use std::fmt::{self, Display, Write};

use crate::connection::{Answer, Outcome};
use crate::snapshot::{or_dash, Snapshot, SpaceSnapshot};

/// Gathers words in a row.
#[derive(Default)]
struct Words(String);

impl Words {
    fn add(&mut self, name: impl Display, value: impl Display) {
        write!(self.0, " {name}={value}").expect("a string takes all");
    }

    fn add_bits(&mut self, name: &str, bits: u64) {
        self.add(name, format_args!("{bits:016x}"));
    }
}

/// All words, each with a space before it.
pub fn words(outcome: &Outcome, state: &Snapshot) -> String {
    let mut words = Words::default();
    if let Ok(answer) = outcome {
        add_answer(&mut words, answer);
    }
    add_estimates(&mut words, state);
    add_controller(&mut words, state);
    words.add("pto_count", state.pto_count);
    words.add("outstanding_non_ack_eliciting", state.non_eliciting_run);
    words.add("cwnd_available", state.available);
    for (number, space) in state.spaces.iter().enumerate() {
        add_space(&mut words, number, space);
    }
    words.0
}

/// A refused event has answered nothing.
fn add_answer(words: &mut Words, answer: &Answer) {
    match answer {
        Answer::Nothing => {}
        Answer::Handle(handle) => words.add("handle", handle),
        Answer::TimedOut {
            lost_packets,
            lost_bytes,
        } => {
            words.add("lost_packets", lost_packets);
            words.add("lost_bytes", lost_bytes);
        }
        Answer::Acked {
            lost_packets,
            lost_bytes,
            acked_bytes,
            spurious,
        } => {
            words.add("lost_packets", lost_packets);
            words.add("lost_bytes", lost_bytes);
            words.add("acked_bytes", acked_bytes);
            words.add("spurious", spurious);
        }
    }
}

fn add_estimates(words: &mut Words, state: &Snapshot) {
    let rtt = &state.rtt;
    words.add("latest", rtt.latest);
    words.add("smoothed", rtt.smoothed);
    words.add("rttvar", rtt.rttvar);
    words.add("min", or_dash(rtt.has_sample.then_some(rtt.min)));
    words.add("max", or_dash(rtt.max));
}

fn add_controller(words: &mut Words, state: &Snapshot) {
    words.add("ssthresh", state.threshold);
    words.add_bits("w_max", state.cubic.w_max);
    words.add_bits("k", state.cubic.k);
    words.add_bits("w_est", state.cubic.w_est);
    words.add_bits("alpha", state.cubic.alpha);
    words.add("cwnd_inc", state.cubic.cwnd_inc);
    words.add("bytes_acked_sl", state.slow_start_bytes);
    words.add("recovery_start", or_dash(state.recovery_start));
    words.add("lost_count", state.lost_count);
    words.add("lost_spurious_count", state.spurious_count);
    words.add("pkt_thresh", state.packet_threshold);
    words.add("time_thresh", TimeThreshold(state.time_threshold));
}

/// The bits of 9/8 or 5/4: the Rust holds no other.
struct TimeThreshold(u64);

impl Display for TimeThreshold {
    fn fmt(&self, f: &mut fmt::Formatter) -> fmt::Result {
        f.write_str(if self.0 == 1.125f64.to_bits() {
            "9/8"
        } else {
            "5/4"
        })
    }
}

fn add_space(words: &mut Words, number: usize, space: &SpaceSnapshot) {
    let values = [
        ("loss_time", or_dash(space.loss_time)),
        ("loss_probes", space.probes.to_string()),
        ("in_flight_count", space.in_flight_count.to_string()),
        ("sent_packets", space.records.to_string()),
        ("acked_frames", space.acked_queue.to_string()),
        ("lost_frames_ack", space.lost_queue.to_string()),
        ("lost_frames_pto", space.pto_queue.to_string()),
        ("largest_acked", or_dash(space.largest_acked)),
        ("last_ack_eliciting", or_dash(space.last_eliciting)),
        ("should_elicit_ack", u8::from(space.elicits_ack).to_string()),
    ];
    for (name, value) in values {
        words.add(format_args!("{number}.{name}"), value);
    }
}

#[cfg(test)]
mod tests {
    use crate::cases;
    use crate::replay::{replayed, Print};
    use crate::root::Root;

    fn inspected(case: &str) -> Vec<String> {
        Root::Exact.choose().unwrap();
        let trace = (cases::named(case).unwrap().trace)();
        let printed = replayed(&trace, Print::Inspected);
        printed.lines().map(str::to_string).collect()
    }

    /// 01's whole output, with the words behind each line.
    #[test]
    fn words_stand_behind_the_lines_of_a_replay() {
        let lines = inspected("whole_output_rehearsal_of_01");
        let first = "1 0 12000 1200 1024000000 latest=0 smoothed=333000000 rttvar=166500000 \
                     min=- max=- ssthresh=18446744073709551615 w_max=0000000000000000 ";
        assert!(lines[0].starts_with(first), "{}", lines[0]);
        let second = "3 0 13200 0 - lost_packets=0 lost_bytes=0 acked_bytes=1200 spurious=0 \
                      latest=100000000 smoothed=100000000 rttvar=50000000 min=100000000 \
                      max=100000000 ssthresh=";
        assert!(lines[1].starts_with(second), "{}", lines[1]);
        let last = "2.largest_acked=0 2.last_ack_eliciting=0 2.should_elicit_ack=0";
        assert!(lines[1].ends_with(last), "{}", lines[1]);
        assert_eq!(lines[2], "end 2");
        // Five values of the line, and 4 + 5 + 12 + 3 + 3 × 10 words.
        assert_eq!(lines[1].split(' ').count(), 5 + 4 + 5 + 12 + 3 + 30);
    }

    #[test]
    fn refused_event_has_no_answer_and_a_take_its_handle() {
        let refused = inspected("ack_without_ranges_is_refused_with_4");
        assert!(refused[1].starts_with("3 4 12000 1200 1024000000 latest=0 "));
        let taken = inspected("handles_come_out_last_in_first_out_and_then_0");
        assert!(taken.iter().any(|line| line.contains(" handle=6 latest=")));
    }
}
