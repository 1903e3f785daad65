//! A sign and a panel in ordinary Rust, as a careful firmware author writes them: what they hold behind `&mut`, the schema in slices that may lie in read-only
//! memory, no heap, messages read in one pass, one walk of the schema a part, entries found by halves, each message made once, where it is kept. Each call of a
//! `Sign<true>` or `Panel<true>` tests what refusal 2 asks, and none of the others, which must be lent what keeps the rules; all other refusals are made by both.

mod access;
mod blocks;
mod envelope;
mod held;
mod panel;
mod reader;
mod replies;
mod report;
mod requests;
mod schema;
mod sign;
mod status;
mod valid;
mod values;
mod writer;

pub use access::Entry;
pub use envelope::Answer;
pub use held::{Held, Stored};
pub use panel::{Broken, Panel, Stage};
pub use reader::Value;
pub use schema::{Attribute, Cluster, Kind, Schema};
pub use sign::Sign;
pub use values::Values;

// The limits of the rules (docs/RULES.md).
const ENDPOINTS: usize = 8;
pub const CLUSTERS: usize = 32;
pub const ATTRIBUTES: usize = 256;
const ENTRIES: usize = 16;
pub const TEXT_SIZE: usize = 200;
const PATHS: usize = 16;
const FILTERS: usize = 32;
const WRITES: usize = 16;
const EXCHANGES: u64 = 1 << 40;
const ENVELOPE: usize = 8;
/// The envelope and 1,024 bytes of payload.
const MESSAGE: usize = ENVELOPE + 1024;
/// How many containers may stand in the message's own structure, one inside the other.
const DEPTH: usize = 9;

/// What is lent to a call that answers a message, and never written.
#[derive(Clone, Copy)]
struct Lent<'a> {
    schema: &'a Schema<'a>,
    table: &'a [Entry],
    subject: u64,
}
