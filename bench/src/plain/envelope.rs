//! The eight bytes before a payload, and what a call answers.

use super::{EXCHANGES, MESSAGE};

// Opcodes.
pub const STATUS_RESPONSE: u8 = 1;
pub const READ_REQUEST: u8 = 2;
pub const REPORT: u8 = 5;
pub const WRITE_REQUEST: u8 = 6;
pub const WRITE_RESPONSE: u8 = 7;

pub struct Envelope {
    pub opcode: u8,
    pub exchange: u64,
    pub turn: u16,
}

/// The envelope of a message of one of these opcodes, and the payload; none where refusal 4 is due.
pub fn open(message: &[u8], opcodes: [u8; 3]) -> Option<(Envelope, &[u8])> {
    let (head, payload) = message.split_first_chunk()?;
    let word = u64::from_be_bytes(*head);
    let (edition, opcode) = (word >> 60, (word >> 56) as u8 & 15);
    let (exchange, turn) = (word >> 16 & (EXCHANGES - 1), word as u16);
    (message.len() <= MESSAGE && edition == 0 && opcodes.contains(&opcode))
        .then_some((Envelope { opcode, exchange, turn }, payload))
}

#[derive(Clone, Copy, PartialEq, Debug)]
pub enum Answer {
    /// A message of this length.
    Sent(usize),
    Nothing,
    /// The number of RULES 6.1, 2 to 10.
    Refused(u8),
}
