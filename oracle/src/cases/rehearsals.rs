//! 01's rehearsals, as far as a replay's lines can show them.

use super::builder::{packet, plain_ack, Builder, MILLI};
use super::cases;
use crate::event::{Ack, Flags, Packet, Status};

fn trace() -> Builder {
    Builder::default()
}

/// 12,000, a first loss to 8,400, and four or five packets of a second flight, of
/// which the last is acked: those at least three numbers below it are lost.
fn second_loss(first_behind: u64) -> Builder {
    trace()
        .sent_each(0, 0..4)
        .acked(100 * MILLI, 3, 4)
        .sent_each(101 * MILLI, 4..first_behind + 1)
        .acked(150 * MILLI, 1, 3)
        .acked(201 * MILLI, first_behind, first_behind + 1)
        .sent(202 * MILLI, first_behind + 1)
        .acked(210 * MILLI, first_behind - 2, first_behind)
        .acked(302 * MILLI, first_behind + 1, first_behind + 2)
}

cases! {
    whole_output_rehearsal_of_01 => trace()
        .sent_packet(0, Packet { handle: 0, ..packet(0) })
        .acked(100 * MILLI, 0, 1),

    first_loss_takes_12000_to_8400_and_is_not_rolled_back => trace()
        .sent_each(0, 0..4)
        .acked(100 * MILLI, 3, 4)
        .sent(101 * MILLI, 4)
        .acked(150 * MILLI, 1, 3)
        .acked(201 * MILLI, 4, 5),

    second_loss_takes_8400_to_5880_and_is_rolled_back => second_loss(7),

    two_packets_lost_in_the_second_period_are_not_rolled_back => second_loss(8),

    second_sample_of_120_ms_with_delay_10_gives_pto_261_25 => trace()
        .sent(0, 0)
        .acked(100 * MILLI, 0, 1)
        .sent(100 * MILLI, 1)
        .sent(110 * MILLI, 2)
        .range(1, 2)
        .ack(220 * MILLI, Ack { delay_micros: 10_000, ..plain_ack() })
        .sent(230 * MILLI, 3),

    loss_delay_is_112_5_ms_after_a_sample_of_100_ms => trace()
        .sent(0, 0)
        .sent(1, 1)
        .range(1, 2)
        .ack(100 * MILLI + 1, plain_ack()),

    loss_delay_is_374_625_ms_before_any_sample => trace()
        .sent(0, 0)
        .sent_packet(1, Packet { flags: Flags(2), ..packet(1) })
        .acked(MILLI, 1, 2),

    number_2_is_lost_when_5_is_the_largest => trace()
        .sent_each(0, 2..6)
        .acked(100 * MILLI, 5, 6),

    number_2_is_not_lost_when_4_is_the_largest => trace()
        .sent_each(0, 2..6)
        .acked(100 * MILLI, 4, 5),

    packet_sent_at_now_minus_the_delay_is_lost => trace()
        .sent(0, 0)
        .sent(12_500_000, 1)
        .acked(112_500_000, 1, 2),

    packet_sent_one_nanosecond_later_is_not_lost => trace()
        .sent(1, 0)
        .sent(12_500_000, 1)
        .acked(112_500_000, 1, 2),

    initial_loss_time_is_not_armed_while_application_has_none => trace()
        .sent_in(0, 0, packet(0), Status(1))
        .sent_in(0, 0, packet(1), Status(1))
        .range(1, 2)
        .ack_with(100 * MILLI, Ack { space: 0, ..plain_ack() }, Status(1)),
}
