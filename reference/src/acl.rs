//! The access list (RULES 2.11 to 2.15).

use crate::limits::ACCESS_ENTRIES;
use crate::paths::ClusterPath;

/// `None` stands for any.
#[derive(Clone, Debug, PartialEq, Eq)]
pub struct Entry {
    pub privilege: u8,
    pub subject: Option<u64>,
    pub endpoint: Option<u16>,
    pub cluster: Option<u32>,
}

pub fn is_privilege(number: u8) -> bool {
    (1..=4).contains(&number)
}

/// What refusal 2 asks of a lent table; its order does not matter.
pub fn sound(table: &[Entry]) -> bool {
    table.len() <= ACCESS_ENTRIES && table.iter().all(|entry| is_privilege(entry.privilege))
}

/// Granted exactly if some entry covers subject, endpoint, cluster and privilege; a higher
/// privilege includes those before it.
pub fn granted(table: &[Entry], subject: u64, place: ClusterPath, privilege: u8) -> bool {
    table.iter().any(|entry| {
        entry.privilege >= privilege
            && entry.subject.is_none_or(|id| id == subject)
            && entry.endpoint.is_none_or(|id| id == place.0)
            && entry.cluster.is_none_or(|id| id == place.1)
    })
}
