//! The eight bytes before a payload (RULES 3.1, 3.2).

use crate::limits::{HEADER, MESSAGE};

pub const STATUS_RESPONSE: u8 = 1;
pub const READ_REQUEST: u8 = 2;
pub const REPORT: u8 = 5;
pub const WRITE_REQUEST: u8 = 6;
pub const WRITE_RESPONSE: u8 = 7;

#[derive(Clone, Copy, Debug, PartialEq, Eq)]
pub struct Envelope {
    pub opcode: u8,
    pub exchange: u64,
    pub turn: u16,
}

/// Splits a message, or `None` where refusal 4 is due: its length, its edition, or an opcode that
/// is not for this end.
pub fn open<'a>(message: &'a [u8], opcodes: &[u8]) -> Option<(Envelope, &'a [u8])> {
    if message.len() < HEADER || message.len() > MESSAGE {
        return None;
    }
    let (head, payload) = message.split_at(HEADER);
    let (edition, opcode) = (head[0] >> 4, head[0] & 0x0F);
    if edition != 0 || !opcodes.contains(&opcode) {
        return None;
    }
    let exchange = head[1..6].iter().fold(0, |sum, byte| sum << 8 | u64::from(*byte));
    let turn = u16::from_be_bytes([head[6], head[7]]);
    Some((Envelope { opcode, exchange, turn }, payload))
}

pub fn seal(envelope: Envelope, payload: &[u8]) -> Vec<u8> {
    let mut message = vec![envelope.opcode];
    message.extend(&envelope.exchange.to_be_bytes()[3..]);
    message.extend(envelope.turn.to_be_bytes());
    message.extend(payload);
    message
}
