//! 01's rehearsals on the real Rust: the wanted values are 01's.

use oracle::cases;
use oracle::connection::{Answer, Outcome};
use oracle::replay::Player;
use oracle::root::Root;
use oracle::snapshot::Snapshot;
use oracle::trace::Reader;

const MILLI: u64 = 1_000_000;

/// What an event, ranges apart, answered and left behind.
struct Step {
    outcome: Outcome,
    after: Snapshot,
}

fn played_case(name: &str) -> Vec<Step> {
    Root::Exact.choose().unwrap();
    let case = cases::named(name).expect("a case of that name");
    let mut player = Player::with_defaults();
    Reader::new(&(case.trace)())
        .filter_map(|event| {
            let outcome = player.play(&event.unwrap())?;
            let after = player.oracle.snapshot();
            Some(Step { outcome, after })
        })
        .collect()
}

fn windows(steps: &[Step]) -> Vec<u64> {
    let mut windows: Vec<u64> = steps.iter().map(|s| s.after.window).collect();
    windows.dedup();
    windows
}

fn lost_packets(step: &Step) -> u64 {
    match step.outcome {
        Ok(Answer::Acked { lost_packets, .. }) => lost_packets,
        _ => panic!("an accepted ack was wanted"),
    }
}

#[test]
fn first_loss_gives_8400_and_no_rollback_follows() {
    let steps = played_case("first_loss_takes_12000_to_8400_and_is_not_rolled_back");
    assert_eq!(windows(&steps), [12_000, 8_400]);
    let last = &steps.last().unwrap().after;
    assert_eq!(last.lost_count, 1);
    assert_eq!(last.checkpoint.threshold, u64::MAX);
}

#[test]
fn second_loss_gives_5880_and_one_new_lost_rolls_back_to_8400() {
    let steps = played_case("second_loss_takes_8400_to_5880_and_is_rolled_back");
    assert_eq!(windows(&steps), [12_000, 8_400, 5_880, 8_400]);
    let last = &steps.last().unwrap().after;
    assert_eq!(last.cubic.w_max, 12_000f64.to_bits());
    assert_eq!(last.lost_count, 2);
    // Not restored: w_est stays that of the period begun at 5,880.
    assert_eq!(last.cubic.w_est, 5_880f64.to_bits());
}

#[test]
fn two_new_lost_are_not_rolled_back() {
    let steps = played_case("two_packets_lost_in_the_second_period_are_not_rolled_back");
    assert_eq!(windows(&steps), [12_000, 8_400, 5_880]);
}

#[test]
fn second_sample_of_120_ms_gives_rttvar_40_smoothed_101_25_and_pto_261_25() {
    let steps = played_case("second_sample_of_120_ms_with_delay_10_gives_pto_261_25");
    assert_eq!(steps[1].after.rtt.rttvar, 50 * MILLI);
    let rtt = steps.last().unwrap().after.rtt;
    assert_eq!(rtt.rttvar, 40 * MILLI);
    assert_eq!(rtt.smoothed, 101_250_000);
    assert_eq!(rtt.pto, 261_250_000);
    // The last packet goes at 230 ms; Application adds the max ack delay of 25 ms.
    let timer = steps.last().unwrap().after.timer.unwrap();
    assert_eq!(timer - 230 * MILLI - 25 * MILLI, 261_250_000);
}

#[test]
fn loss_delay_is_112_5_ms_after_a_sample_and_374_625_before() {
    let after = played_case("loss_delay_is_112_5_ms_after_a_sample_of_100_ms");
    let loss_time = |steps: &[Step]| steps.last().unwrap().after.spaces[2].loss_time;
    assert_eq!(loss_time(&after), Some(112_500_000));
    let before = played_case("loss_delay_is_374_625_ms_before_any_sample");
    assert_eq!(loss_time(&before), Some(374_625_000));
}

#[test]
fn number_2_is_lost_with_largest_5_and_not_with_4() {
    let last = |name| lost_packets(played_case(name).last().unwrap());
    assert_eq!(last("number_2_is_lost_when_5_is_the_largest"), 1);
    assert_eq!(last("number_2_is_not_lost_when_4_is_the_largest"), 0);
}

#[test]
fn packet_sent_at_now_minus_delay_is_lost_and_one_nanosecond_later_not() {
    let last = |name| lost_packets(played_case(name).last().unwrap());
    assert_eq!(last("packet_sent_at_now_minus_the_delay_is_lost"), 1);
    assert_eq!(last("packet_sent_one_nanosecond_later_is_not_lost"), 0);
}

#[test]
fn initial_loss_time_is_set_but_the_timer_is_the_pto() {
    let steps = played_case("initial_loss_time_is_not_armed_while_application_has_none");
    let last = &steps.last().unwrap().after;
    assert_eq!(last.spaces[0].loss_time, Some(112_500_000));
    assert_eq!(last.spaces[2].loss_time, None);
    // Sent at 0, smoothed 100 + 4 × 50.
    assert_eq!(last.timer, Some(300 * MILLI));
}
