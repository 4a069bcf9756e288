//! A QUIC sender's loss recovery: packet tracking, acknowledgements, loss, timers, round-trip
//! estimates and CUBIC. The library behind it is written in Rattle and proved equal to its
//! definitions; this crate is a thin safe face over it, under the names of crate quiche, whose
//! loss recovery it is a port of.
//!
//! [`Recovery`] holds one connection. It is plain numbers: it owns no other memory, has no
//! pointer in it, can be cloned, sent to another thread and dropped at any time. Calls on one
//! connection come from one thread at a time, which `&mut self` sees to.
//!
//! - Moments are whole nanoseconds since a moment 0 of the host's choice ([`Moment`]), spans
//!   are `Duration`s; both go up to 2^53 - 1 ns. An ack's delay is in microseconds. Sizes and
//!   windows are bytes.
//! - A packet's frames are one number of the host's, its handle; 0 means none. Handles come back
//!   from [`Recovery::next_acked_frame`] and [`Recovery::next_lost_frame`].
//! - An event is accepted, or refused with a [`Refusal`] and has changed nothing.
//! - Nothing panics and nothing is allocated after [`Recovery::new`].
//!
//! What quiche has and this crate hasn't: HyStart++, PRR (so [`Recovery::cwnd_available`] is
//! without its part), Reno, BBR, delivery rate, pacing, logging, `on_path_change`, and
//! `bytes_lost`, which quiche never raises.
//!
//! ```
//! use skavvilet::{Epoch, HandshakeStatus, Moment, Recovery, RecoveryConfig, Sent};
//!
//! let mut recovery = Recovery::new(&RecoveryConfig::default())?;
//! let status = HandshakeStatus::completed();
//!
//! // A packet goes out at moment 0, and 1.024 s are given to its acknowledgement.
//! let packet = Sent::data(0, 1_200, 77);
//! recovery.on_packet_sent(packet, Epoch::Application, status, Moment(0))?;
//! assert_eq!(recovery.bytes_in_flight(), 1_200);
//! assert_eq!(recovery.loss_detection_timer(), Some(Moment(1_024_000_000)));
//!
//! // It comes after 100 ms.
//! let now = Moment(100_000_000);
//! let acked = recovery.on_ack_received(&[0..1], 0, Epoch::Application, status, now, None, false)?;
//! assert_eq!(acked.acked_bytes, 1_200);
//! assert_eq!(recovery.cwnd(), 13_200);
//! assert_eq!(recovery.next_acked_frame(Epoch::Application), Some(77));
//! assert_eq!(recovery.next_acked_frame(Epoch::Application), None);
//! # Ok::<(), skavvilet::Refusal>(())
//! ```
//!
//! The static library is linked from `SKAVVILET_LIB_DIR`, else from the repository's
//! `target/staticlib`; `.ci/library` proves it and writes it there.

mod recovery;
mod refusal;
pub mod sys;
mod values;

pub use recovery::Recovery;
pub use refusal::Refusal;
pub use values::{
    Epoch, HandshakeStatus, Moment, OnAckReceivedOutcome, OnLossDetectionTimeoutOutcome,
    RecoveryConfig, Sent,
};
