//! How far the handshake is: the status byte and the space that data goes to.

use super::random::Random;
use crate::event::Status;

pub struct Handshake {
    status: u8,
    /// Acks still to come in Initial, then in Handshake, before the next stage.
    acks_left: u64,
}

impl Handshake {
    /// Without one, everything is completed from the start.
    pub fn new(wanted: bool, random: &mut Random) -> Self {
        Handshake {
            status: if wanted { 0 } else { Status::ALL.0 },
            acks_left: random.between((1, 6)),
        }
    }

    pub fn status(&self) -> Status {
        Status(self.status)
    }

    /// The space that the present stage is about.
    pub fn sending_space(&self) -> u8 {
        match self.status {
            0 => 0,
            s if s & Status::COMPLETED == 0 => 1,
            _ => 2,
        }
    }

    /// Before completion data already goes to Application now and then, and
    /// Initial is still in use until the peer is verified.
    pub fn draw_sending_space(&self, random: &mut Random) -> u8 {
        let stage = self.sending_space();
        if stage == 1 && random.in_thousand(350) {
            let verified = self.status().verified();
            return if verified { 2 } else { 0 };
        }
        stage
    }

    /// An ack came in. Answers with the space that is to be discarded for it.
    pub fn acked(&mut self, space: u8, random: &mut Random) -> Option<u8> {
        let stage = self.sending_space();
        if stage == 2 || stage != space {
            return None;
        }
        self.acks_left -= 1;
        if self.acks_left > 0 {
            return None;
        }
        self.acks_left = random.between((3, 25));
        if stage == 0 {
            self.status = Status::KEYS;
            return None;
        }
        if !self.status().verified() {
            self.status |= Status::VERIFIED;
            return Some(0);
        }
        self.status |= Status::COMPLETED;
        Some(1)
    }
}
