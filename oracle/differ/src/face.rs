//! The safe face of crate skavvilet makes the same calls as `ours` does, and reads the same.

use oracle::connection::{Answer, Oracle};
use oracle::event::{Event, Status};
use oracle::generate::generated;
use oracle::generate::profile::PROFILES;
use oracle::replay::Player;
use oracle::root::Root;
use oracle::settings::Settings;
use oracle::trace::HeldRanges;
use skavvilet::{Epoch, HandshakeStatus, Moment, Recovery, RecoveryConfig, Refusal, Sent};

use crate::ours::{Ours, Told};

fn epoch(space: u8) -> Epoch {
    [Epoch::Initial, Epoch::Handshake, Epoch::Application][usize::from(space)]
}

fn handshake(status: Status) -> HandshakeStatus {
    HandshakeStatus {
        has_handshake_keys: status.keys(),
        peer_verified_address: status.verified(),
        completed: status.completed(),
    }
}

/// The event through the safe face; None for a range.
fn play(
    face: &mut Recovery,
    event: &Event,
    held: &mut HeldRanges,
) -> Option<Result<Answer, Refusal>> {
    let nothing = |()| Answer::Nothing;
    let handle = |handle: Option<u64>| Ok(Answer::Handle(handle.unwrap_or(0)));
    Some(match event {
        Event::Range { start, end } => {
            held.hold(*start, *end);
            return None;
        }
        Event::Sent {
            now,
            space,
            packet,
            status,
        } => {
            let sent = Sent {
                pkt_num: packet.number,
                frames: packet.handle,
                size: packet.size,
                ack_eliciting: packet.flags.eliciting(),
                in_flight: packet.flags.in_flight(),
                has_data: packet.flags.data(),
                is_pmtud_probe: packet.flags.probe(),
            };
            face.on_packet_sent(sent, epoch(*space), handshake(*status), Moment(*now))
                .map(nothing)
        }
        Event::Ack { now, ack, status } => {
            let ranges: Vec<_> = held.words().chunks(2).map(|r| r[0]..r[1]).collect();
            held.empty();
            let skipped = Some(ack.skipped).filter(|&n| n != u64::MAX);
            face.on_ack_received(
                &ranges,
                ack.delay_micros,
                epoch(ack.space),
                handshake(*status),
                Moment(*now),
                skipped,
                ack.limited,
            )
            .map(|did| Answer::Acked {
                lost_packets: did.lost_packets,
                lost_bytes: did.lost_bytes,
                acked_bytes: did.acked_bytes,
                spurious: did.spurious_losses,
            })
        }
        Event::Timeout { now, status } => face
            .on_loss_detection_timeout(handshake(*status), Moment(*now))
            .map(|did| Answer::TimedOut {
                lost_packets: did.lost_packets,
                lost_bytes: did.lost_bytes,
            }),
        Event::Discard { now, space, status } => face
            .on_pkt_num_space_discarded(epoch(*space), handshake(*status), Moment(*now))
            .map(nothing),
        Event::Size(size) => face.pmtud_update_max_datagram_size(*size).map(nothing),
        Event::TakeAcked(space) => handle(face.next_acked_frame(epoch(*space))),
        Event::TakeLost(space) => handle(face.next_lost_frame(epoch(*space))),
        Event::Ping(space) => {
            face.ping_sent(epoch(*space));
            Ok(Answer::Nothing)
        }
    })
}

/// Each read-out beside the Rust's value of the same name.
fn read_outs_agree(face: &Recovery, rust: &Oracle) {
    let s = rust.snapshot();
    let ns = |d: std::time::Duration| d.as_nanos() as u64;
    assert_eq!(face.cwnd(), s.window);
    assert_eq!(face.cwnd_available(), s.available);
    assert_eq!(face.bytes_in_flight(), s.in_flight);
    assert_eq!(face.loss_detection_timer().map(|t| t.0), s.timer);
    assert_eq!(ns(face.rtt()), s.rtt.smoothed);
    assert_eq!(ns(face.rttvar()), s.rtt.rttvar);
    let min = s.rtt.has_sample.then_some(s.rtt.min);
    assert_eq!(face.min_rtt().map(ns), min);
    assert_eq!(face.max_rtt().map(ns), s.rtt.max);
    assert_eq!(face.pto().map(ns), Some(s.rtt.pto));
    assert_eq!(face.pto_count(), u64::from(s.pto_count));
    assert_eq!(face.lost_count(), s.lost_count);
    assert_eq!(face.lost_spurious_count(), s.spurious_count);
    assert_eq!(face.pkt_thresh(), s.packet_threshold);
    assert_eq!(face.time_thresh().to_bits(), s.time_threshold);
    assert_eq!(face.max_datagram_size(), s.datagram_size);
    for (n, space) in s.spaces.iter().enumerate() {
        let epoch = epoch(n as u8);
        assert_eq!(face.should_elicit_ack(epoch), space.elicits_ack);
        let queued = space.lost_queue + space.pto_queue;
        assert_eq!(face.has_lost_frames(epoch), queued > 0);
        assert_eq!(face.get_largest_acked_on_epoch(epoch), space.largest_acked);
        let last_sent = rust.last_sent(n as u8);
        assert_eq!(face.largest_sent_pkt_num_on_path(epoch), last_sent);
        assert_eq!(face.loss_probes(epoch), space.probes);
        assert_eq!(face.sent_packets_len(epoch), space.records);
        assert_eq!(face.in_flight_count(epoch), space.in_flight_count);
    }
}

#[test]
fn safe_face_and_plain_calls_leave_the_same_record_after_each_event() {
    Root::Exact.choose().unwrap();
    for profile in PROFILES {
        let mut face = Recovery::new(&RecoveryConfig::default()).unwrap();
        let mut ours = Ours::new(&Settings::default()).unwrap();
        let mut rust = Player::with_defaults();
        let mut held = HeldRanges::default();
        for event in generated(profile, 5, 700) {
            rust.play(&event);
            let plain = ours.play(&event);
            let safe = play(&mut face, &event, &mut held);
            let safe = safe.map(|answer| Told {
                refusal: 0,
                answer: answer.unwrap(),
            });
            assert_eq!(safe, plain);
            assert!(face.connection() == ours.connection(), "{event:?}");
            read_outs_agree(&face, &rust.oracle);
        }
    }
}
