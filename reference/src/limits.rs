//! Every limit of the rules, named once.

pub const ENDPOINTS: usize = 8;
pub const CLUSTERS: usize = 32;
pub const ATTRIBUTES: usize = 256;
pub const ACCESS_ENTRIES: usize = 16;
pub const TEXT: usize = 200;

/// Depth counts containers; the message's own structure is 1 (RULES 4.9).
pub const DEPTH: usize = 10;
pub const HEADER: usize = 8;
pub const PAYLOAD: usize = 1024;
pub const MESSAGE: usize = HEADER + PAYLOAD;

pub const READ_PATHS: usize = 16;
pub const FILTERS: usize = 32;
pub const WRITES: usize = 16;

pub const LAST_EXCHANGE: u64 = (1 << 40) - 1;
pub const LAST_TURN: u16 = u16::MAX;

/// The interaction model revision that we write (RULES 4.15).
pub const REVISION: u64 = 10;

/// The longest message that a script may spell, so that an overlong one can be tried.
pub const SPELLED_MESSAGE: usize = 2048;
