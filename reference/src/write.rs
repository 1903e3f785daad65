//! What a write action does: one status for each entry (RULES 5.13 to 5.15).

use crate::acl::{granted, Entry};
use crate::messages::{WriteEntry, WriteRequest};
use crate::paths::Path;
use crate::server::Holdings;
use crate::status::{
    DATA_VERSION_MISMATCH, INVALID_DATA_TYPE, SUCCESS, UNSUPPORTED_ACCESS, UNSUPPORTED_WRITE,
};
use crate::value::{judge, Value};

/// Each entry in order, judged against what the earlier ones left.
pub fn perform(
    holdings: &mut Holdings,
    table: &[Entry],
    subject: u64,
    request: &WriteRequest,
) -> Vec<(Path, u8)> {
    let mut statuses = Vec::new();
    for entry in &request.entries {
        let status = match verdict(holdings, table, subject, entry) {
            Ok(value) => {
                holdings.store(&entry.path, value);
                SUCCESS
            }
            Err(status) => status,
        };
        statuses.push((entry.path, status));
    }
    statuses
}

/// The value to store, or the first refusal of 7F, C3, 86, 88, 7E, 92, 8D, 87.
fn verdict(
    holdings: &Holdings,
    table: &[Entry],
    subject: u64,
    entry: &WriteEntry,
) -> Result<Value, u8> {
    let attribute = holdings.schema().find(&entry.path)?;
    let privilege = attribute.write.ok_or(UNSUPPORTED_WRITE)?;
    let place = entry.path.place();
    if !granted(table, subject, place, privilege) {
        return Err(UNSUPPORTED_ACCESS);
    }
    if entry.version.is_some_and(|version| version != holdings.version(place)) {
        return Err(DATA_VERSION_MISMATCH);
    }
    let value = Value::of(&entry.data).ok_or(INVALID_DATA_TYPE)?;
    match judge(&attribute.kind, attribute.nullable, &value) {
        SUCCESS => Ok(value),
        status => Err(status),
    }
}
