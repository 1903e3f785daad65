//! The second program: a sign and a panel in ordinary Rust, modelled the plain way, with a script
//! player and a generator of scripts. Written from the rules (docs/RULES.md) and Matter's chapters
//! alone, so that a misreading in one of the two programs shows as a difference.

pub mod acl;
pub mod answer;
pub mod cache;
pub mod envelope;
pub mod fields;
pub mod generate;
pub mod limits;
pub mod messages;
pub mod paths;
pub mod player;
pub mod report;
pub mod rng;
pub mod schema;
pub mod script;
pub mod server;
pub mod spelling;
pub mod status;
pub mod tlv;
pub mod value;
pub mod write;
