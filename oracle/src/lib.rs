//! The real recovery of quiche 0.30.0 behind document 01's events.
//!
//! `Oracle` takes 01's events and answers with the Rust's own results; a small
//! front gives the refusals of 01's table, which the Rust doesn't have.
//! `Snapshot` is everything it holds, every field comparable. Around it stand the
//! trace format, the replay, the judge of 01's domain and the trace generator.

pub mod alone;
pub mod arguments;
pub mod bench;
pub mod careful;
pub mod cases;
pub mod connection;
pub mod coverage;
pub mod domain;
pub mod event;
pub mod exact_root;
pub mod front;
pub mod generate;
pub mod inspect;
pub mod moment;
pub mod replay;
pub mod root;
pub mod settings;
pub mod snapshot;
pub mod trace;
