//! Rules of 01 and points of it that are easily got wrong.

use super::builder::{packet, plain_ack, Builder, APPLICATION, MILLI};
use super::cases;
use crate::event::{Ack, Event, Flags, Packet, Status};

fn trace() -> Builder {
    Builder::default()
}

/// The window at 5,880 in its second period, since 201 ms: of packets 4 to 9 the
/// last is acked, 4 to 6 are lost, and 10 is sent. The smoothed RTT is 100 ms.
fn second_period() -> Builder {
    trace()
        .sent_each(0, 0..4)
        .acked(100 * MILLI, 3, 4)
        .sent_each(101 * MILLI, 4..10)
        .acked(150 * MILLI, 1, 3)
        .acked(201 * MILLI, 9, 10)
        .sent(202 * MILLI, 10)
}

/// A window of 50 packets falls to 35 and to 24; of the second flight, numbers 4
/// to `last`, all at least three below the last are lost. Then one is acked.
fn large_window(last: u64) -> Builder {
    trace()
        .event(Event::Size(6_000))
        .sent_each(0, 0..4)
        .acked(100 * MILLI, 3, 4)
        .sent_each(101 * MILLI, 4..last + 1)
        .acked(150 * MILLI, 1, 3)
        .acked(201 * MILLI, last, last + 1)
        .sent(202 * MILLI, last + 1)
        .acked(210 * MILLI, last - 2, last)
        .acked(302 * MILLI, last + 1, last + 2)
}

/// 256 records of 40 bytes, sent at 1 ms, and a 257th that is refused.
fn full_ring() -> Builder {
    let small = |number| Packet {
        size: 40,
        handle: 0,
        ..packet(number)
    };
    (0..257).fold(trace(), |trace, n| trace.sent_packet(MILLI, small(n)))
}

fn timeouts(count: u64) -> Builder {
    let first = trace().sent_each(0, 0..3);
    (1..=count).fold(first, |trace, n| trace.timeout(n * 2_000 * MILLI))
}

cases! {
    empty_trace_prints_end_0 => trace(),

    other_bits_of_flags_status_and_limited_are_ignored => trace()
        .sent_in(0, APPLICATION, Packet { flags: Flags(0xf7), ..packet(0) }, Status(0xff))
        .range(0, 1)
        .raw(&[3, 0, 0, 0, 0, 5, 245, 225, 0, 2, 0, 0, 0, 0, 0, 0, 0, 0, 0xff, 0xfe])
        .raw(&[0xff; 8]),

    limited_ack_grows_nothing => trace()
        .sent(0, 0)
        .range(0, 1)
        .ack(100 * MILLI, Ack { limited: true, ..plain_ack() }),

    late_ack_of_a_lost_packet_in_flight_rolls_back => second_period()
        .acked(220 * MILLI, 4, 5)
        .sent(260 * MILLI, 11),

    packet_threshold_grows_to_the_first_distance_from_the_stored_largest => second_period()
        .acked(220 * MILLI, 4, 7)
        .acked(255 * MILLI, 7, 9)
        .sent_each(261 * MILLI, 11..16)
        .acked(300 * MILLI, 15, 16),

    lost_record_is_drained_one_smoothed_rtt_later => second_period()
        .acked(301 * MILLI, 7, 9)
        .acked(301 * MILLI, 4, 5),

    lost_record_is_kept_until_then_and_forgiven => second_period()
        .acked(301 * MILLI - 1, 7, 9)
        .acked(301 * MILLI - 1, 4, 5),

    ack_of_nothing_new_drains_too => second_period()
        .acked(301 * MILLI, 50, 51)
        .acked(301 * MILLI, 4, 5),

    late_ack_of_a_lost_packet_not_in_flight_rolls_nothing_back => trace()
        .sent_each(0, 0..4)
        .acked(100 * MILLI, 3, 4)
        .sent_packet(101 * MILLI, Packet { flags: Flags(1), ..packet(4) })
        .sent_each(101 * MILLI, 5..10)
        .acked(150 * MILLI, 1, 3)
        .acked(201 * MILLI, 9, 10)
        .acked(220 * MILLI, 4, 5)
        .acked(220 * MILLI, 5, 6),

    timeout_drains_what_was_lost_one_smoothed_rtt_before => second_period()
        .timeout(301 * MILLI)
        .acked(302 * MILLI, 4, 5),

    three_lost_of_a_window_of_24_packets_are_rolled_back => large_window(9),

    four_lost_of_a_window_of_24_packets_are_not_rolled_back => large_window(10),

    lost_packet_not_in_flight_counts_against_the_rollback => trace()
        .sent_each(0, 0..4)
        .acked(100 * MILLI, 3, 4)
        .sent_packet(101 * MILLI, Packet { flags: Flags(1), ..packet(4) })
        .sent_each(101 * MILLI, 5..9)
        .acked(150 * MILLI, 1, 3)
        .acked(201 * MILLI, 8, 9)
        .sent(202 * MILLI, 9)
        .acked(210 * MILLI, 6, 8)
        .acked(302 * MILLI, 9, 10),

    send_not_in_flight_leaves_the_timer => trace()
        .sent_in(0, 0, packet(0), Status(0))
        .discard(MILLI, 0, Status(0))
        .sent_in(5 * MILLI, 0, Packet { flags: Flags(0), ..packet(1) }, Status(0)),

    unset_pto_time_of_a_later_space_wins_over_a_set_one => trace()
        .sent_in(0, 1, packet(0), Status::ALL)
        .sent_in(0, 2, Packet { flags: Flags(2), ..packet(0) }, Status::ALL)
        .sent_in(MILLI, 2, packet(1), Status::ALL),

    smallest_window_keeps_the_first_size_after_a_size_change => trace()
        .sent(0, 0)
        .acked(100 * MILLI, 0, 1)
        .event(Event::Size(9_000))
        .sent_each(101 * MILLI, 1..5)
        .acked(201 * MILLI, 4, 5),

    ack_of_nothing_new_leaves_timer_and_window => trace()
        .sent_each(0, 0..2)
        .acked(100 * MILLI, 0, 1)
        .acked(120 * MILLI, 0, 1)
        .acked(130 * MILLI, 7, 9),

    ack_of_unsent_numbers_raises_no_stored_largest => trace()
        .sent_each(0, 0..3)
        .range(0, 1)
        .acked(100 * MILLI, 50, 60),

    delay_that_just_fits_is_taken_off_the_sample => trace()
        .sent(0, 0)
        .acked(100 * MILLI, 0, 1)
        .sent_each(101 * MILLI, 1..3)
        .range(1, 2)
        .ack(211 * MILLI, Ack { delay_micros: 10_000, ..plain_ack() })
        .sent(212 * MILLI, 3),

    delay_that_just_fails_to_fit_is_not_taken_off => trace()
        .sent(0, 0)
        .acked(100 * MILLI, 0, 1)
        .sent_each(101 * MILLI, 1..3)
        .range(1, 2)
        .ack(211 * MILLI, Ack { delay_micros: 10_001, ..plain_ack() })
        .sent(212 * MILLI, 3),

    lost_pmtud_probe_begins_no_period => trace()
        .sent_packet(0, Packet { flags: Flags(11), size: 9_000, ..packet(0) })
        .sent_each(0, 1..4)
        .acked(100 * MILLI, 3, 4),

    packets_not_in_flight_grow_the_window_too => trace()
        .sent_packet(0, Packet { flags: Flags(1), ..packet(0) })
        .sent(0, 1)
        .acked(100 * MILLI, 0, 1),

    loss_time_of_a_packet_not_in_flight_goes_before_no_timer => trace()
        .sent_packet(0, Packet { flags: Flags(0), ..packet(0) })
        .sent(MILLI, 1)
        .acked(101 * MILLI, 1, 2)
        .timeout(113 * MILLI),

    size_change_moves_only_an_untouched_window => trace()
        .event(Event::Size(1_500))
        .event(Event::Size(65_527))
        .event(Event::Size(1_200))
        .sent(0, 0)
        .acked(100 * MILLI, 0, 1)
        .event(Event::Size(1_500))
        .event(Event::Size(1_320))
        .event(Event::Size(1_200)),

    window_that_grew_to_old_size_times_ten_moves_by_value => trace()
        .event(Event::Size(1_320))
        .event(Event::Size(1_200))
        .sent(0, 0)
        .acked(100 * MILLI, 0, 1)
        .event(Event::Size(1_320))
        .event(Event::Size(2_000)),

    smallest_window_is_two_packets_of_the_first_size => (0..6).fold(
        trace().sent_each(0, 0..4).acked(100 * MILLI, 3, 4),
        |trace, n| trace
            .sent_each((101 + 101 * n) * MILLI, 4 * n + 4..4 * n + 8)
            .acked((201 + 101 * n) * MILLI, 4 * n + 7, 4 * n + 8),
    ),

    three_timeouts_grant_one_and_then_two_probes => timeouts(3)
        .event(Event::Ping(APPLICATION))
        .event(Event::Ping(APPLICATION))
        .event(Event::Ping(APPLICATION)),

    early_timeout_does_all_the_same => trace()
        .sent(0, 0)
        .timeout(1),

    handles_come_out_last_in_first_out_and_then_0 => trace()
        .sent_each(0, 0..6)
        .acked(100 * MILLI, 4, 6)
        .event(Event::TakeAcked(APPLICATION))
        .event(Event::TakeAcked(APPLICATION))
        .event(Event::TakeAcked(APPLICATION))
        .timeout(1_500 * MILLI)
        .event(Event::TakeLost(APPLICATION))
        .event(Event::TakeLost(APPLICATION))
        .event(Event::TakeLost(APPLICATION))
        .event(Event::TakeLost(APPLICATION)),

    discard_takes_the_bytes_of_its_space_and_no_others => trace()
        .sent_in(0, 0, packet(0), Status(0))
        .sent_in(0, 1, packet(0), Status(1))
        .sent_in(MILLI, 2, packet(0), Status(1))
        .discard(2 * MILLI, 0, Status(3))
        .discard(3 * MILLI, 1, Status(3))
        .discard(4 * MILLI, 2, Status(7)),

    discard_unsets_the_last_eliciting_send => trace()
        .sent_in(0, 1, packet(0), Status::ALL)
        .discard(MILLI, 1, Status::ALL)
        .sent_in(2 * MILLI, 1, Packet { flags: Flags(2), ..packet(1) }, Status::ALL),

    discard_unsets_the_loss_time => trace()
        .sent_each(0, 0..2)
        .acked(100 * MILLI, 1, 2)
        .discard(101 * MILLI, 2, Status::ALL),

    discard_keeps_the_pto_count => trace()
        .sent_in(0, 0, packet(0), Status::ALL)
        .sent_in(0, 1, packet(0), Status::ALL)
        .timeout(999 * MILLI)
        .discard(1_000 * MILLI, 0, Status::ALL),

    application_in_flight_before_completion_has_no_timer => trace()
        .sent_in(0, 2, packet(0), Status(3))
        .sent_in(1, 1, packet(0), Status(3))
        .sent_in(2, 2, packet(1), Status(7)),

    nothing_in_flight_arms_from_now_unless_the_peer_is_verified => trace()
        .sent_in(0, 0, packet(0), Status(0))
        .discard(MILLI, 0, Status(0))
        .discard(2 * MILLI, 0, Status(1))
        .discard(3 * MILLI, 0, Status(3)),

    full_ring_of_256_refuses_and_room_is_used_again => full_ring()
        .acked(100 * MILLI, 0, 10)
        .sent_each(100 * MILLI, 300..311),

    room_is_freed_only_from_the_front => full_ring()
        .acked(50 * MILLI, 1, 3)
        .sent(50 * MILLI, 300)
        .acked(50 * MILLI, 0, 1)
        .sent_each(50 * MILLI, 300..304),

    lost_records_hold_their_room_for_one_smoothed_rtt => full_ring()
        .acked(101 * MILLI, 100, 101)
        .sent(101 * MILLI, 300)
        .acked(201 * MILLI - 1, 100, 101)
        .sent(201 * MILLI - 1, 300)
        .acked(201 * MILLI, 100, 101)
        .sent(201 * MILLI, 300),

    full_ring_of_one_space_leaves_room_in_the_others => full_ring()
        .sent_in(MILLI, 0, packet(0), Status::ALL)
        .sent_in(MILLI, 1, packet(0), Status::ALL),

    discard_frees_a_full_ring => full_ring()
        .discard(2 * MILLI, APPLICATION, Status::ALL)
        .sent_each(2 * MILLI, 256..258),

    ranges_are_held_across_other_events => trace()
        .sent_each(0, 0..3)
        .range(0, 1)
        .timeout(MILLI)
        .range(2, 3)
        .sent(MILLI, 2)
        .sent(MILLI, 3)
        .event(Event::Ping(APPLICATION))
        .ack(100 * MILLI, plain_ack()),

    twenty_four_packets_in_a_row_that_elicit_nothing => (0..25).fold(trace(), |trace, n| {
        trace.sent_packet(n, Packet { flags: Flags(2), ..packet(n) })
    }),
}
