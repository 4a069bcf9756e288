//! Stand-in for frame.rs: 01 has one opaque 64-bit handle a packet.

#[derive(Clone, Copy, Debug, Default, PartialEq, Eq)]
pub struct Frame(pub u64);
