//! Status codes as they stand on the wire (RULES 5.6, 5.14, 6.10; chapter 8 names them).

pub const SUCCESS: u8 = 0x00;
pub const UNSUPPORTED_ACCESS: u8 = 0x7E;
pub const UNSUPPORTED_ENDPOINT: u8 = 0x7F;
pub const INVALID_ACTION: u8 = 0x80;
pub const UNSUPPORTED_ATTRIBUTE: u8 = 0x86;
pub const CONSTRAINT_ERROR: u8 = 0x87;
pub const UNSUPPORTED_WRITE: u8 = 0x88;
pub const RESOURCE_EXHAUSTED: u8 = 0x89;
pub const INVALID_DATA_TYPE: u8 = 0x8D;
pub const UNSUPPORTED_READ: u8 = 0x8F;
pub const DATA_VERSION_MISMATCH: u8 = 0x92;
pub const UNSUPPORTED_CLUSTER: u8 = 0xC3;
pub const PATHS_EXHAUSTED: u8 = 0xC8;
pub const TIMED_REQUEST_MISMATCH: u8 = 0xC9;
