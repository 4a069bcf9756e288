//! Crate root around the copied files of quiche 0.30.0: what they name of it.

#![allow(dead_code, unused_imports, unused_variables)]

/// Logging is off.
macro_rules! trace {
    ($($part:tt)*) => {};
}

pub mod frame;
pub mod minmax;
pub mod packet;
pub mod ranges;
pub mod recovery;

pub use recovery::StartupExit;
pub use recovery::StartupExitReason;

#[derive(Clone, Copy, Debug, PartialEq, Eq)]
pub enum Error {
    OptimisticAckDetected,
    CongestionControl,
}

pub type Result<T> = std::result::Result<T, Error>;
