//! The access table.

use super::schema::Cluster;
use super::ENTRIES;

/// A privilege from 1 to 4, View to Administer; `None` stands for any.
pub struct Entry {
    pub privilege: u8,
    pub subject: Option<u64>,
    pub endpoint: Option<u16>,
    pub cluster: Option<u32>,
}

/// What refusal 2 asks of a table.
pub fn sound(table: &[Entry]) -> bool {
    table.len() <= ENTRIES && table.iter().all(|entry| (1..=4).contains(&entry.privilege))
}

/// The highest privilege that a subject has at a cluster, 0 for none.
pub fn level(table: &[Entry], subject: u64, cluster: &Cluster) -> u8 {
    let covers = |entry: &&Entry| {
        entry.subject.is_none_or(|id| id == subject)
            && entry.endpoint.is_none_or(|id| id == cluster.endpoint)
            && entry.cluster.is_none_or(|id| id == cluster.id)
    };
    table.iter().filter(covers).map(|entry| entry.privilege).max().unwrap_or(0)
}
