//! A connection driven through the safe face: 01's whole output, and what each answer means.

#![allow(clippy::single_range_in_vec_init)]

use std::time::Duration;

use skavvilet::{Epoch, HandshakeStatus, Moment, Recovery, RecoveryConfig, Refusal, Sent};

const MS: u64 = 1_000_000;
const SPACE: Epoch = Epoch::Application;

fn fresh() -> Recovery {
    Recovery::new(&RecoveryConfig::default()).unwrap()
}

fn send(recovery: &mut Recovery, ms: u64, packet: Sent) -> Result<(), Refusal> {
    let status = HandshakeStatus::completed();
    recovery.on_packet_sent(packet, SPACE, status, Moment(ms * MS))
}

fn ack(recovery: &mut Recovery, ms: u64, ranges: &[std::ops::Range<u64>]) -> Result<u64, Refusal> {
    let (status, now) = (HandshakeStatus::completed(), Moment(ms * MS));
    let did = recovery.on_ack_received(ranges, 0, SPACE, status, now, None, false)?;
    Ok(did.acked_bytes)
}

#[test]
fn fresh_connection_has_no_sample_and_no_timer() {
    let recovery = fresh();
    assert_eq!(recovery.cwnd(), 12_000);
    assert_eq!(recovery.cwnd_available(), 12_000);
    assert_eq!(recovery.rtt(), Duration::from_millis(333));
    assert_eq!(recovery.rttvar(), Duration::from_micros(166_500));
    assert_eq!((recovery.min_rtt(), recovery.max_rtt()), (None, None));
    assert_eq!(recovery.pto(), Some(Duration::from_millis(999)));
    assert_eq!(recovery.loss_detection_timer(), None);
    assert_eq!(recovery.get_largest_acked_on_epoch(SPACE), None);
    assert_eq!((recovery.pkt_thresh(), recovery.time_thresh()), (3, 1.125));
}

/// 01's rehearsal of two samples: 100 ms, then 120 ms with a delay of 10.
#[test]
fn second_sample_of_120_ms_with_delay_10_gives_pto_261_25() {
    let mut recovery = fresh();
    send(&mut recovery, 0, Sent::data(0, 1_200, 0)).unwrap();
    assert_eq!(ack(&mut recovery, 100, &[0..1]), Ok(1_200));
    assert_eq!(recovery.rttvar(), Duration::from_millis(50));
    send(&mut recovery, 100, Sent::data(1, 1_200, 0)).unwrap();
    let (status, now) = (HandshakeStatus::completed(), Moment(220 * MS));
    let did = recovery.on_ack_received(&[1..2], 10_000, SPACE, status, now, None, false);
    assert_eq!(did.unwrap().acked_bytes, 1_200);
    assert_eq!(recovery.rttvar(), Duration::from_millis(40));
    assert_eq!(recovery.rtt(), Duration::from_micros(101_250));
    assert_eq!(recovery.pto(), Some(Duration::from_micros(261_250)));
    assert_eq!(recovery.min_rtt(), Some(Duration::from_millis(100)));
    assert_eq!(recovery.max_rtt(), Some(Duration::from_millis(120)));
}

#[test]
fn each_refusal_is_an_error_and_the_connection_stays() {
    let mut recovery = fresh();
    send(&mut recovery, 5, Sent::data(7, 1_200, 1)).unwrap();
    let kept = recovery.clone();
    let status = HandshakeStatus::completed();
    let early = send(&mut recovery, 4, Sent::data(8, 1_200, 1));
    let empty = send(&mut recovery, 5, Sent::data(8, 0, 1));
    let stale = send(&mut recovery, 5, Sent::data(7, 1_200, 1));
    let none = ack(&mut recovery, 6, &[]);
    let many: Vec<_> = (0..70).map(|n| 2 * n..2 * n + 1).collect();
    let many = ack(&mut recovery, 6, &many);
    let now = Moment(6 * MS);
    let skipped = recovery.on_ack_received(&[6..8], 0, SPACE, status, now, Some(6), false);
    let late = recovery.on_ack_received(&[7..8], u64::MAX, SPACE, status, now, None, false);
    let size = recovery.pmtud_update_max_datagram_size(1_199);
    assert_eq!(early, Err(Refusal::Clock));
    assert_eq!(empty, Err(Refusal::Domain));
    assert_eq!(stale, Err(Refusal::Number));
    assert_eq!(none, Err(Refusal::Ranges));
    assert_eq!(many, Err(Refusal::Ranges));
    assert_eq!(skipped, Err(Refusal::Skipped));
    assert_eq!(late, Err(Refusal::TooLarge));
    assert_eq!(size, Err(Refusal::Domain));
    assert!(recovery == kept);
}

#[test]
fn sixty_four_ranges_are_taken() {
    let mut recovery = fresh();
    for number in 0..128 {
        send(&mut recovery, 0, Sent::data(number, 50, 0)).unwrap();
    }
    let ranges: Vec<_> = (0..64).map(|n| 2 * n..2 * n + 1).collect();
    assert_eq!(ack(&mut recovery, 1, &ranges), Ok(64 * 50));
}

#[test]
fn ring_of_256_records_is_full_and_room_is_used_again() {
    let mut recovery = fresh();
    for number in 0..256 {
        send(&mut recovery, 0, Sent::data(number, 40, 0)).unwrap();
    }
    let full = send(&mut recovery, 0, Sent::data(256, 40, 0));
    assert_eq!(full, Err(Refusal::Full));
    assert_eq!(recovery.sent_packets_len(SPACE), 256);
    ack(&mut recovery, 50, &[0..1]).unwrap();
    assert_eq!(send(&mut recovery, 50, Sent::data(256, 40, 0)), Ok(()));
}

#[test]
fn timeout_grants_a_probe_and_a_ping_takes_it() {
    let mut recovery = fresh();
    let status = HandshakeStatus::completed();
    send(&mut recovery, 0, Sent::data(0, 1_200, 9)).unwrap();
    let due = recovery.loss_detection_timer().unwrap();
    recovery.on_loss_detection_timeout(status, due).unwrap();
    assert_eq!((recovery.pto_count(), recovery.loss_probes(SPACE)), (1, 1));
    assert_eq!(recovery.cwnd_available(), u64::MAX);
    assert!(recovery.should_elicit_ack(SPACE));
    assert!(recovery.has_lost_frames(SPACE));
    assert_eq!(recovery.next_lost_frame(SPACE), Some(9));
    recovery.ping_sent(SPACE);
    assert_eq!(recovery.loss_probes(SPACE), 0);
    assert_eq!(recovery.cwnd_available(), 10_800);
}

#[test]
fn discard_and_size_change_do_as_they_say() {
    let mut recovery = fresh();
    let status = HandshakeStatus::completed();
    recovery.pmtud_update_max_datagram_size(1_500).unwrap();
    assert_eq!(
        (recovery.max_datagram_size(), recovery.cwnd()),
        (1_500, 15_000)
    );
    send(&mut recovery, 0, Sent::data(3, 1_200, 9)).unwrap();
    recovery
        .on_pkt_num_space_discarded(SPACE, status, Moment(MS))
        .unwrap();
    assert_eq!(
        (recovery.bytes_in_flight(), recovery.in_flight_count(SPACE)),
        (0, 0)
    );
    assert_eq!(recovery.largest_sent_pkt_num_on_path(SPACE), Some(3));
    assert_eq!(recovery.lost_count(), 0);
}

/// Full rings, 64 ranges, losses and timeouts, on a thread's smallest stack.
#[test]
fn recovery_can_go_to_another_thread_with_16_kb_of_stack() {
    let mut recovery = fresh();
    let run = move || {
        for round in 0..10 {
            let (ms, first) = (1_000 * round, 256 * round);
            for number in first..first + 256 {
                send(&mut recovery, ms, Sent::data(number, 1_200, number + 1))?;
            }
            let ranges: Vec<_> = (0..64).map(|n| first + 4 * n..first + 4 * n + 2).collect();
            ack(&mut recovery, ms + 100, &ranges)?;
            let status = HandshakeStatus::completed();
            recovery.on_loss_detection_timeout(status, Moment((ms + 500) * MS))?;
            while recovery.next_acked_frame(SPACE).is_some() {}
            while recovery.next_lost_frame(SPACE).is_some() {}
            recovery.on_pkt_num_space_discarded(SPACE, status, Moment((ms + 600) * MS))?;
        }
        Ok::<u64, Refusal>(recovery.lost_count())
    };
    let thread = std::thread::Builder::new().stack_size(16 * 1_024);
    let lost = thread.spawn(run).unwrap().join().unwrap();
    assert!(lost.unwrap() > 1_000);
}
