//! Each refusal that a trace can reach, on both sides of its edge.

use super::builder::{packet, plain_ack, Builder, APPLICATION, MILLI};
use super::cases;
use crate::event::{Ack, Event, Flags, Packet, Status};
use crate::moment::LARGEST_TIME;

const NUMBERS: u64 = 1 << 62;
/// From a first packet in Application to its timer: 333 + 4 × 166.5 + 25 ms.
const FIRST_PTO: u64 = 1_024 * MILLI;
/// The largest delay whose nanoseconds are at most 2^53 - 1.
const LARGEST_DELAY: u64 = LARGEST_TIME / 1_000;
const SECOND: u64 = 1_000 * MILLI;
/// A sample that leaves a whole number of microseconds to the largest span.
const SMALLEST: u64 = 100 * MILLI + LARGEST_TIME % 1_000;
/// Sent then and sampled with 1 s, an Application packet's timer is the largest moment: three
/// times the sample and 25 ms.
const AFTER_SAMPLE: u64 = LARGEST_TIME - 3 * SECOND - 25 * MILLI;

fn trace() -> Builder {
    Builder::default()
}

fn sized(number: u64, size: u64) -> Packet {
    Packet {
        size,
        ..packet(number)
    }
}

fn flagged(number: u64, flags: u8) -> Packet {
    Packet {
        flags: Flags(flags),
        ..packet(number)
    }
}

fn delayed(delay_micros: u64) -> Ack {
    Ack {
        delay_micros,
        ..plain_ack()
    }
}

fn skipping(skipped: u64) -> Ack {
    Ack {
        skipped,
        ..plain_ack()
    }
}

/// 256 handles in the acked queue, and packets 256 to 259 still out.
fn full_acked_queue() -> Builder {
    let first = trace()
        .sent_each(0, 0..128)
        .acked(100 * MILLI, 0, 128)
        .sent_each(101 * MILLI, 128..260);
    first.acked(200 * MILLI, 128, 256)
}

/// 196 handles in the lost queue less those taken, and 99 packets that the next
/// ack finds lost.
fn nearly_full_lost_queue(taken: u64) -> Builder {
    let flights = (0..3).fold(trace(), |trace, n| {
        let (first, now) = (100 * n, 1_000 * n * MILLI);
        let trace = trace.sent_each(now, first..first + 100);
        if n == 2 {
            return trace;
        }
        trace.acked(now + 100 * MILLI, first + 99, first + 100)
    });
    (0..taken).fold(flights, |trace, _| {
        trace.event(Event::TakeLost(APPLICATION))
    })
}

/// A first sample of 100 ms, then a packet to be acked with the largest delay.
fn second_sample_with(status: Status) -> Builder {
    trace()
        .sent_in(0, APPLICATION, packet(0), status)
        .range(0, 1)
        .ack_with(100 * MILLI, plain_ack(), status)
        .sent_in(100 * MILLI, APPLICATION, packet(1), status)
        .range(1, 2)
        .ack_with(200 * MILLI, delayed(LARGEST_DELAY), status)
}

cases! {
    clock_going_back_is_refused_with_1 => trace()
        .sent(10, 0).sent(9, 1).sent(10, 1).timeout(9).discard(9, 2, Status::ALL)
        .range(0, 1).ack(9, plain_ack()).timeout(10),

    moment_past_the_largest_is_refused_with_1 => trace()
        .sent_packet(LARGEST_TIME + 1, flagged(0, 0))
        .sent_packet(u64::MAX, flagged(0, 0))
        .sent_packet(LARGEST_TIME, flagged(0, 0)),

    each_event_is_refused_with_1_one_past_the_largest_moment => trace()
        .sent(0, 0)
        .timeout(LARGEST_TIME + 1)
        .discard(LARGEST_TIME + 1, 0, Status::ALL)
        .acked(LARGEST_TIME + 1, 7, 8)
        .acked(LARGEST_TIME, 7, 8)
        .timeout(LARGEST_TIME - 1)
        .discard(LARGEST_TIME, 2, Status::ALL),

    timeout_and_discard_move_the_clock => trace()
        .sent(0, 0)
        .timeout(100).sent(99, 1).sent(100, 1)
        .discard(200, 0, Status::ALL).sent(199, 2).sent(200, 2)
        .acked(199, 0, 1).acked(200, 0, 1),

    refused_event_moves_no_clock => trace()
        .sent_packet(100, sized(0, 0)).sent(50, 0).acked(200, 0, 0).timeout(60),

    ack_of_nothing_new_moves_the_clock => trace()
        .sent(0, 0).acked(100, 7, 9).sent(99, 1).sent(100, 1),

    space_3_is_refused_with_2 => trace()
        .sent_in(0, 3, packet(0), Status::ALL)
        .discard(0, 3, Status::ALL)
        .range(0, 1).ack(0, Ack { space: 255, ..plain_ack() })
        .event(Event::TakeAcked(3)).event(Event::TakeLost(3)).event(Event::Ping(3))
        .event(Event::TakeAcked(2)).event(Event::TakeLost(2)).event(Event::Ping(2)),

    packet_sizes_0_and_65528_are_refused_with_2 => trace()
        .sent_packet(0, sized(0, 0)).sent_packet(0, sized(0, 1))
        .sent_packet(0, sized(1, 65_528)).sent_packet(0, sized(1, 65_527)),

    packet_number_2_to_the_62_is_refused_with_2 => trace()
        .sent(0, NUMBERS).sent(0, NUMBERS - 1).acked(MILLI, NUMBERS - 1, NUMBERS),

    datagram_sizes_1199_and_65528_are_refused_with_2 => trace()
        .event(Event::Size(1_199)).event(Event::Size(1_200))
        .event(Event::Size(65_528)).event(Event::Size(65_527)),

    pmtud_probe_not_in_flight_is_refused_with_2 => trace()
        .sent_packet(0, flagged(0, 9)).sent_packet(0, flagged(0, 11)),

    skipped_number_from_2_to_the_62_is_refused_with_2 => trace()
        .sent(0, 0)
        .range(0, 1).ack(MILLI, skipping(NUMBERS))
        .range(0, 1).ack(MILLI, skipping(u64::MAX - 1))
        .range(0, 1).ack(MILLI, skipping(NUMBERS - 1)),

    number_not_above_the_last_is_refused_with_3_even_after_a_discard => trace()
        .sent(0, 5).sent(0, 5).sent(0, 4).sent(0, 6)
        .discard(1, 2, Status::ALL).sent(1, 6).sent(1, 7)
        .sent_in(1, 0, packet(0), Status::ALL),

    ack_without_ranges_is_refused_with_4 => trace()
        .sent(0, 0).ack(MILLI, plain_ack()).acked(MILLI, 0, 1).ack(MILLI, plain_ack()),

    empty_or_turned_range_is_refused_with_4 => trace()
        .sent_each(0, 0..3)
        .acked(MILLI, 1, 1).acked(MILLI, 2, 1).acked(MILLI, 1, 2),

    range_end_above_2_to_the_62_is_refused_with_4 => trace()
        .sent(0, 0).acked(MILLI, 0, NUMBERS + 1).acked(MILLI, 0, NUMBERS),

    range_that_touches_the_one_before_is_refused_with_4 => trace()
        .sent_each(0, 0..6)
        .range(0, 2).acked(MILLI, 2, 3)
        .range(3, 4).acked(MILLI, 0, 1)
        .range(0, 2).acked(MILLI, 3, 4),

    sixty_four_ranges_are_taken_and_65_refused_with_4 => trace()
        .sent_each(0, 0..140)
        .ranges_apart(65).ack(MILLI, plain_ack())
        .ranges_apart(64).ack(MILLI, plain_ack()),

    sixty_sixth_range_is_dropped_and_the_ack_refused_with_4 => trace()
        .sent_each(0, 0..140)
        .ranges_apart(66).ack(MILLI, plain_ack())
        .ranges_apart(65).range(0, 0).ack(MILLI, plain_ack())
        .acked(MILLI, 130, 131),

    refused_ack_empties_the_held_ranges => trace()
        .sent_each(0, 0..3)
        .range(0, 1).ack(MILLI, skipping(0))
        .ack(MILLI, plain_ack())
        .acked(MILLI, 1, 2),

    skipped_number_is_refused_before_ranges_apply => trace()
        .sent(0, 0).sent(0, 2)
        .range(0, 1).range(2, 4).ack(100 * MILLI, skipping(3))
        .range(0, 1).range(2, 3).ack(100 * MILLI, skipping(3)),

    skipped_number_at_a_range_end_is_not_in_it => trace()
        .sent(0, 0).sent(0, 2)
        .range(0, 1).range(2, 3).ack(100 * MILLI, skipping(1)),

    skipped_number_is_in_a_range_from_its_start_to_below_its_end => trace()
        .sent_each(0, 0..6)
        .range(2, 5).ack(MILLI, skipping(2))
        .range(2, 5).ack(MILLI, skipping(4))
        .range(2, 5).ack(MILLI, skipping(5))
        .range(0, 1).ack(MILLI, skipping(1)),

    first_refusal_of_the_table_wins => trace()
        .sent(10, 0)
        .sent_in(9, 3, sized(0, 0), Status::ALL)
        .sent_packet(10, sized(0, 0))
        .range(1, 1).ack(9, Ack { space: 3, ..skipping(NUMBERS) })
        .range(1, 1).ack(10, Ack { space: 3, ..skipping(0) })
        .range(1, 1).ack(10, Ack { delay_micros: u64::MAX, ..skipping(1) })
        .range(0, 1).ack(10, Ack { delay_micros: u64::MAX, ..skipping(0) })
        .range(0, 1).ack(10, delayed(u64::MAX)),

    acked_queue_of_256_handles_is_full => full_acked_queue()
        .acked(210 * MILLI, 256, 257)
        .event(Event::TakeAcked(APPLICATION))
        .acked(210 * MILLI, 256, 257)
        .acked(220 * MILLI, 257, 258),

    ack_of_two_is_refused_whole_where_one_handle_has_room => full_acked_queue()
        .event(Event::TakeAcked(APPLICATION))
        .acked(210 * MILLI, 256, 258)
        .acked(210 * MILLI, 256, 257),

    handle_0_takes_no_room_in_a_full_queue => full_acked_queue()
        .sent_packet(201 * MILLI, Packet { handle: 0, ..packet(260) })
        .acked(210 * MILLI, 260, 261),

    discard_empties_a_full_queue => full_acked_queue()
        .acked(210 * MILLI, 256, 257)
        .discard(210 * MILLI, APPLICATION, Status::ALL)
        .event(Event::TakeAcked(APPLICATION))
        .sent(211 * MILLI, 260)
        .acked(220 * MILLI, 260, 261),

    lost_queue_of_256_handles_is_full => nearly_full_lost_queue(38)
        .acked(2_100 * MILLI, 299, 300)
        .event(Event::TakeLost(APPLICATION))
        .acked(2_100 * MILLI, 299, 300),

    timeout_that_would_overfill_the_lost_queue_is_refused_with_6 => nearly_full_lost_queue(39)
        .acked(2_100 * MILLI, 299, 300)
        .timeout(2_113 * MILLI)
        .event(Event::TakeLost(APPLICATION))
        .timeout(2_113 * MILLI)
        .event(Event::TakeLost(APPLICATION))
        .timeout(2_113 * MILLI),

    full_ring_is_refused_before_a_timer_that_is_too_late => (0..256)
        .fold(trace(), |trace, n| trace.sent(LARGEST_TIME - FIRST_PTO, n))
        .sent(LARGEST_TIME - FIRST_PTO, 256)
        .sent(LARGEST_TIME - FIRST_PTO + 1, 256),

    delay_is_refused_before_a_full_queue => full_acked_queue()
        .range(256, 257).ack(210 * MILLI, delayed(LARGEST_DELAY + 1))
        .range(256, 257).ack(210 * MILLI, delayed(LARGEST_DELAY)),

    full_acked_queue_is_refused_before_the_sample => full_acked_queue()
        .range(256, 257).ack_with(210 * MILLI, delayed(LARGEST_DELAY), Status(3))
        .event(Event::TakeAcked(APPLICATION))
        .range(256, 257).ack_with(210 * MILLI, delayed(LARGEST_DELAY), Status(3)),

    sample_is_refused_before_a_full_lost_queue => nearly_full_lost_queue(38)
        .range(299, 300).ack_with(2_100 * MILLI, delayed(LARGEST_DELAY), Status(3))
        .acked(2_100 * MILLI, 299, 300),

    delay_past_the_largest_span_is_refused_with_7 => trace()
        .sent_each(0, 0..2)
        .range(0, 1).ack(100 * MILLI, delayed(LARGEST_DELAY + 1))
        .range(0, 1).ack(100 * MILLI, delayed(LARGEST_DELAY)),

    delay_beyond_the_smallest_rtt_is_refused_with_7_before_completion =>
        second_sample_with(Status(3)),

    delay_and_the_smallest_rtt_may_come_to_the_largest_span => trace()
        .sent_in(0, APPLICATION, packet(0), Status(3))
        .range(0, 1)
        .ack_with(SMALLEST, plain_ack(), Status(3))
        .sent_in(SMALLEST, APPLICATION, packet(1), Status(3))
        .range(1, 2)
        .ack_with(2 * SMALLEST, delayed((LARGEST_TIME - SMALLEST) / 1_000 + 1), Status(3))
        .range(1, 2)
        .ack_with(2 * SMALLEST, delayed((LARGEST_TIME - SMALLEST) / 1_000), Status(3)),

    delay_is_capped_once_completed_and_accepted => second_sample_with(Status::ALL),

    timer_past_the_largest_moment_is_refused_with_7 => trace()
        .sent(LARGEST_TIME - FIRST_PTO + 1, 0)
        .sent_packet(LARGEST_TIME - FIRST_PTO + 1, flagged(0, 0)),

    timer_at_the_largest_moment_is_set => trace()
        .sent(LARGEST_TIME - FIRST_PTO, 0)
        .sent(LARGEST_TIME - FIRST_PTO + 1, 1),

    idle_timer_past_the_largest_moment_is_refused_with_7 => trace()
        .discard(LARGEST_TIME - 999 * MILLI, 0, Status(1))
        .discard(LARGEST_TIME - 999 * MILLI + 1, 0, Status(1))
        .discard(LARGEST_TIME - 999 * MILLI + 1, 0, Status(3)),

    timer_after_an_ack_past_the_largest_moment_is_refused_with_7 => trace()
        .sent_each(AFTER_SAMPLE + 1, 0..2)
        .acked(AFTER_SAMPLE + 1 + SECOND, 0, 1)
        .acked(AFTER_SAMPLE + SECOND, 0, 1),

    timer_after_an_ack_at_the_largest_moment_is_set => trace()
        .sent_each(AFTER_SAMPLE, 0..2)
        .acked(AFTER_SAMPLE + SECOND, 0, 1),

    loss_time_past_the_largest_moment_is_refused_with_7 => trace()
        .sent_each(LARGEST_TIME - 9 * SECOND + 1, 0..2)
        .acked(LARGEST_TIME - SECOND + 1, 1, 2)
        .acked(LARGEST_TIME - SECOND, 1, 2),

    loss_time_at_the_largest_moment_is_set => trace()
        .sent_each(LARGEST_TIME - 9 * SECOND, 0..2)
        .acked(LARGEST_TIME - SECOND, 1, 2),

    timeout_with_nothing_in_flight_forms_no_moment_if_the_peer_is_verified => trace()
        .timeout(LARGEST_TIME)
        .event(Event::Timeout { now: LARGEST_TIME, status: Status(5) })
        .discard(LARGEST_TIME, 0, Status(5))
        .discard(LARGEST_TIME, 0, Status::ALL),

    pto_that_doubles_past_the_largest_span_is_refused_with_7 => (1..26).fold(
        trace().sent(0, 0),
        |trace, n| trace.timeout(n),
    ),
}
