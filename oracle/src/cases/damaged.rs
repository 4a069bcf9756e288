//! Damaged, cut and overlong traces.

use super::builder::{Builder, APPLICATION, MILLI};
use super::cases;
use crate::event::Event;

fn trace() -> Builder {
    Builder::default()
}

/// Ranges print no line, so a long trace of them keeps its lines short.
fn ranges_and_takes(ranges: u64, takes: u64) -> Builder {
    let held = (0..ranges).fold(trace(), |trace, n| trace.range(n, n + 1));
    (0..takes).fold(held, |trace, _| trace.event(Event::TakeAcked(APPLICATION)))
}

cases! {
    unknown_kind_0_is_bad_at_its_offset => trace().sent(0, 0).raw(&[0]).sent(MILLI, 1),

    unknown_kind_10_is_bad_at_its_offset => trace().sent(0, 0).range(0, 1).raw(&[10, 0]),

    unknown_kind_255_is_bad_at_0 => trace().raw(&[255]),

    trace_cut_after_a_kind_byte_is_bad_there => trace().sent(0, 0).raw(&[4]),

    trace_cut_before_the_last_byte_of_a_sent_body_is_bad_at_its_kind => trace()
        .sent(0, 0)
        .raw(&[1; 29]),

    trace_cut_in_a_range_is_bad_at_its_kind => trace().sent(0, 0).raw(&[2; 16]),

    trace_cut_in_an_ack_is_bad_at_its_kind => trace().sent(0, 0).range(0, 1).raw(&[3; 27]),

    trace_cut_in_a_timeout_is_bad_at_its_kind => trace().sent(0, 0).raw(&[4; 9]),

    trace_cut_in_a_discard_is_bad_at_its_kind => trace().sent(0, 0).raw(&[5; 10]),

    trace_cut_in_a_size_is_bad_at_its_kind => trace().sent(0, 0).raw(&[6, 4]),

    trace_cut_in_a_take_of_an_acked_handle_is_bad_at_its_kind => trace().sent(0, 0).raw(&[7]),

    trace_cut_in_a_take_of_a_lost_handle_is_bad_at_its_kind => trace().sent(0, 0).raw(&[8]),

    trace_cut_in_a_ping_is_bad_at_its_kind => trace().sent(0, 0).raw(&[9]),

    refused_event_before_a_damaged_one_prints_its_line => trace()
        .sent(5, 0)
        .sent(4, 1)
        .raw(&[77]),

    trace_of_65536_bytes_is_read_to_its_end => ranges_and_takes(3_854, 9),

    trace_of_65537_bytes_prints_only_too_long => ranges_and_takes(3_855, 1),

    trace_of_65536_bytes_that_ends_in_a_cut_body_is_bad_there => ranges_and_takes(3_854, 8)
        .raw(&[4, 0]),

    damaged_trace_of_65537_bytes_prints_only_too_long => trace()
        .raw(&[0, 0])
        .raw(&ranges_and_takes(3_855, 0).built()),
}

#[cfg(test)]
mod tests {
    use crate::cases::named;

    #[test]
    fn long_traces_have_the_lengths_of_their_names() {
        let length = |name| (named(name).unwrap().trace)().len();
        assert_eq!(length("trace_of_65536_bytes_is_read_to_its_end"), 65_536);
        assert_eq!(length("trace_of_65537_bytes_prints_only_too_long"), 65_537);
        let cut = "trace_of_65536_bytes_that_ends_in_a_cut_body_is_bad_there";
        assert_eq!(length(cut), 65_536);
        let damaged = "damaged_trace_of_65537_bytes_prints_only_too_long";
        assert_eq!(length(damaged), 65_537);
    }
}
