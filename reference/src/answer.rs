//! What a call of either end answers: a number, and for 0 the bytes (RULES 6.1).

pub const BROKEN: u8 = 2;
pub const SHORT_BUFFER: u8 = 3;
pub const NOT_A_MESSAGE: u8 = 4;
pub const NOT_AWAITED: u8 = 5;
pub const UNUSABLE: u8 = 6;
pub const TOO_MUCH: u8 = 7;
pub const NUMBERS_USED_UP: u8 = 8;
pub const NOTHING_OPEN: u8 = 9;
pub const NOT_WRITABLE: u8 = 10;
pub const BAD_SCHEMA: u8 = 11;

#[derive(Clone, Debug, PartialEq, Eq)]
pub enum Answer {
    /// 0, with the message to send.
    Done(Vec<u8>),
    /// 1: silence, or the cache's read or write has ended.
    Nothing,
    /// 2 to 11.
    Refused(u8),
}

impl Answer {
    pub fn number(&self) -> u8 {
        match self {
            Answer::Done(_) => 0,
            Answer::Nothing => 1,
            Answer::Refused(number) => *number,
        }
    }

    pub fn bytes(&self) -> &[u8] {
        match self {
            Answer::Done(bytes) => bytes,
            _ => &[],
        }
    }
}
