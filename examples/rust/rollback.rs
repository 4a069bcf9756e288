//! A sender loses a packet, loses another a flight later, and takes the second reduction back
//! when it turns out that only one packet was gone: 12,000, 8,400, 5,880 and 8,400 bytes of
//! window. One line a call; the same as ../c/rollback.c prints.
//!
//!     .ci/library
//!     cargo run --manifest-path rust/skavvilet/Cargo.toml --example rollback

#![allow(clippy::single_range_in_vec_init)]

use skavvilet::{Epoch, HandshakeStatus, Moment, Recovery, RecoveryConfig, Refusal, Sent};

const MS: u64 = 1_000_000;
const SPACE: Epoch = Epoch::Application;

fn say(recovery: &Recovery, what: &str, (first, end): (u64, u64), lost: u64) {
    let now = recovery.connection().values.clock / MS;
    let (window, in_flight) = (recovery.cwnd(), recovery.bytes_in_flight());
    let timer = recovery.loss_detection_timer();
    let timer = timer.map_or("-".to_string(), |timer| timer.0.to_string());
    println!(
        "{now:3} ms {what} {first}..{end}: window {window}, in flight {in_flight}, lost {lost}, timer {timer}"
    );
}

/// Packets of 1,200 bytes; a packet's handle is its number and 1.
fn sent(recovery: &mut Recovery, now: u64, first: u64, end: u64) -> Result<(), Refusal> {
    for n in first..end {
        let packet = Sent::data(n, 1_200, n + 1);
        let status = HandshakeStatus::completed();
        recovery.on_packet_sent(packet, SPACE, status, Moment(now))?;
        say(recovery, "sent", (n, n + 1), 0);
    }
    Ok(())
}

fn acked(recovery: &mut Recovery, now: u64, first: u64, end: u64) -> Result<(), Refusal> {
    let status = HandshakeStatus::completed();
    let now = Moment(now);
    let did = recovery.on_ack_received(&[first..end], 0, SPACE, status, now, None, false)?;
    say(recovery, "acked", (first, end), did.lost_packets);
    Ok(())
}

fn main() -> Result<(), Refusal> {
    let mut recovery = Recovery::new(&RecoveryConfig::default())?;
    sent(&mut recovery, 0, 0, 4)?;
    // 0 is lost, three numbers below 3: a first period.
    acked(&mut recovery, 100 * MS, 3, 4)?;
    sent(&mut recovery, 101 * MS, 4, 8)?;
    acked(&mut recovery, 150 * MS, 1, 3)?;
    // 4 is lost: a second period.
    acked(&mut recovery, 201 * MS, 7, 8)?;
    sent(&mut recovery, 202 * MS, 8, 9)?;
    acked(&mut recovery, 210 * MS, 5, 7)?;
    // Sent after the period began, and one lost in it: rolled back.
    acked(&mut recovery, 302 * MS, 8, 9)?;
    let congestion = recovery.connection().values.congestion;
    println!("w_max {:.0}", congestion.cubic.w_max);

    while let Some(handle) = recovery.next_lost_frame(SPACE) {
        println!("to be sent again: {handle}");
    }

    // A clock that goes back is refused, and nothing changes.
    let back = sent(&mut recovery, 301 * MS, 9, 10).unwrap_err();
    let in_flight = recovery.bytes_in_flight();
    println!("refused with {}, in flight {in_flight}", back.number());
    Ok(())
}
