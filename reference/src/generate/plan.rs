//! Plans and access tables: small and full ones, and those that break a rule.

use super::maker::{hex, spell_path, Maker};
use super::values;
use crate::acl::Entry;
use crate::limits::{ACCESS_ENTRIES, TEXT};
use crate::paths::Path;
use crate::rng::Rng;
use crate::schema::{Attribute, Cluster, Schema};
use crate::value::{Kind, Value};

const ATTRIBUTE_IDS: [u32; 16] =
    [0, 1, 2, 3, 4, 9, 254, 255, 256, 0xFFF7, 0xFFF8, 0xFFFC, 0xFFFD, 0xFFFE, 0x1_0001, u32::MAX];
const VERSIONS: [u32; 7] = [0, 5, 255, 256, 77_777, u32::MAX - 1, u32::MAX];

#[derive(Clone, Copy, PartialEq)]
pub enum Size {
    Small,
    /// Many long texts, so that a read takes several parts.
    Wordy,
    /// 8 endpoints, 32 clusters, 256 attributes.
    Full,
}

fn unsigned_limits(rng: &mut Rng) -> (u64, u64) {
    *rng.pick(&[
        (0, u64::MAX),
        (0, 0xFF),
        (9, 256),
        (7, 7),
        (0xFFFF_FFFF, 0x1_0000_0001),
        (1 << 63, u64::MAX),
    ])
}

fn signed_limits(rng: &mut Rng) -> (i64, i64) {
    *rng.pick(&[
        (i64::MIN, i64::MAX),
        (-128, 127),
        (-129, 128),
        (-32769, -1),
        (0, 0),
        (i64::MIN, i64::MIN),
        (i32::MIN as i64 - 1, i32::MAX as i64 + 1),
    ])
}

/// Lowest, highest, first.
fn float_limits(rng: &mut Rng) -> (u32, u32, u32) {
    *rng.pick(&[
        (0x0000_0000, 0x42C8_0000, 0x3F00_0000),
        (0xC2C8_0000, 0x42C8_0000, 0x8000_0000),
        (0x8000_0000, 0x0000_0000, 0x0000_0000),
        (0x0000_0000, 0x8000_0000, 0x8000_0000),
        (0xFF7F_FFFF, 0x7F7F_FFFF, 0x7F7F_FFFF),
        (0x0000_0001, 0x0000_0002, 0x0000_0001),
    ])
}

fn kind(rng: &mut Rng, size: Size) -> (Kind, Value) {
    let wordy = size == Size::Wordy && rng.chance(75);
    match if wordy { 4 } else { rng.below(5) } {
        0 => (Kind::Bool, Value::Bool(rng.chance(50))),
        1 => {
            let (lowest, highest) = unsigned_limits(rng);
            let first = *rng.pick(&[lowest, highest]);
            (Kind::Unsigned { lowest, highest }, Value::Unsigned(first))
        }
        2 => {
            let (lowest, highest) = signed_limits(rng);
            let first = *rng.pick(&[lowest, highest]);
            (Kind::Signed { lowest, highest }, Value::Signed(first))
        }
        3 => {
            let (lowest, highest, first) = float_limits(rng);
            (Kind::Float { lowest, highest }, Value::Float(first))
        }
        _ => (Kind::Text, Value::Text(first_text(rng, size))),
    }
}

fn first_text(rng: &mut Rng, size: Size) -> Vec<u8> {
    let length = match (size, rng.below(6)) {
        (Size::Wordy, 0..=2) => rng.between(TEXT - 40, TEXT),
        (_, 3) => 0,
        (_, 4) => TEXT,
        _ => rng.between(0, 30),
    };
    values::text_of(rng, length)
}

/// Mostly what everyone may read and write, so that most paths lead somewhere.
fn privilege(rng: &mut Rng, none: usize) -> Option<u8> {
    if rng.chance(none) {
        None
    } else {
        Some(*rng.pick(&[1, 1, 1, 1, 2, 3, 4]))
    }
}

fn attributes(rng: &mut Rng, size: Size, place: (u16, u32), out: &mut Vec<Attribute>) {
    let count = match size {
        Size::Small => rng.below(5),
        Size::Wordy => rng.between(1, 8),
        Size::Full => 8,
    };
    let mut ids = ATTRIBUTE_IDS;
    rng.shuffle(&mut ids);
    let mut ids = ids[..count].to_vec();
    ids.sort_unstable();
    for attribute in ids {
        let path = Path { endpoint: place.0, cluster: place.1, attribute };
        let (kind, first) = kind(rng, size);
        let (read, write) = (privilege(rng, 10), privilege(rng, 20));
        out.push(Attribute { path, read, write, nullable: rng.chance(40), kind, first });
    }
}

pub fn sound(rng: &mut Rng, size: Size) -> Schema {
    let (endpoints, clusters) = match size {
        Size::Small => (rng.between(1, 2), rng.between(1, 2)),
        Size::Wordy => (rng.between(1, 3), rng.between(1, 4)),
        Size::Full => (8, 4),
    };
    let mut schema = Schema { subject: *rng.pick(&[7, 0, u64::MAX, 112]), ..Schema::default() };
    for number in 0..endpoints {
        let endpoint = if number == 7 { u16::MAX } else { (number * (1 + number * 40)) as u16 };
        for cluster in 0..clusters {
            let id = *[6, 7, 0x101, u32::MAX].get(cluster).unwrap_or(&0x9000_0000);
            let place = (endpoint, id);
            schema.clusters.push(Cluster { place, version: *rng.pick(&VERSIONS) });
            attributes(rng, size, place, &mut schema.attributes);
        }
    }
    schema
}

/// One of the four privileges for everyone, and entries for some or for nobody asked.
pub fn table(rng: &mut Rng, schema: &Schema) -> Vec<Entry> {
    let mut table = Vec::new();
    let count = *rng.pick(&[0, 1, 2, 3, ACCESS_ENTRIES - 1]);
    for _ in 0..count {
        let path = values::path(rng, schema);
        table.push(Entry {
            privilege: rng.between(1, 4) as u8,
            subject: *rng.pick(&[None, Some(schema.subject), Some(8)]),
            endpoint: *rng.pick(&[None, Some(path.endpoint), Some(path.endpoint)]),
            cluster: *rng.pick(&[None, Some(path.cluster), Some(path.cluster)]),
        });
    }
    if rng.chance(85) {
        let privilege = *rng.pick(&[4, 4, 4, 1, 2, 3]);
        table.push(Entry { privilege, subject: None, endpoint: None, cluster: None });
    }
    rng.shuffle(&mut table);
    table
}

/// A table that gets refusal 2 at every call of the sign.
pub fn bad_table(maker: &mut Maker, table: &mut Vec<Entry>) {
    let any = Entry { privilege: 4, subject: None, endpoint: None, cluster: None };
    match maker.rng.below(3) {
        0 => {
            table.resize(ACCESS_ENTRIES + 1, any);
            maker.note("access table of 17");
        }
        1 => {
            table.push(Entry { privilege: 0, ..any });
            maker.note("access privilege 0");
        }
        _ => {
            table.insert(0, Entry { privilege: *maker.rng.pick(&[5, 255]), ..any });
            maker.note("access privilege past 4");
        }
    }
    table.truncate(ACCESS_ENTRIES + 1);
}

/// Writes the setup's lines.
pub fn say(maker: &mut Maker, schema: &Schema, table: &[Entry]) {
    maker.subject = schema.subject;
    maker.say(&format!("subject {}", schema.subject));
    for cluster in &schema.clusters {
        let (endpoint, id) = cluster.place;
        maker.say(&format!("cluster {endpoint} {id} {}", cluster.version));
    }
    for attribute in &schema.attributes {
        maker.say(&spell_attribute(attribute));
    }
    for entry in table {
        let any = || "*".to_string();
        let subject = entry.subject.map_or_else(any, |id| id.to_string());
        let endpoint = entry.endpoint.map_or_else(any, |id| id.to_string());
        let cluster = entry.cluster.map_or_else(any, |id| id.to_string());
        maker.say(&format!("access {} {subject} {endpoint} {cluster}", entry.privilege));
    }
}

fn spell_attribute(one: &Attribute) -> String {
    let none = || "-".to_string();
    let read = one.read.map_or_else(none, |number| number.to_string());
    let write = one.write.map_or_else(none, |number| number.to_string());
    let kind = match (&one.kind, &one.first) {
        (Kind::Bool, Value::Bool(first)) => format!("bool {}", u8::from(*first)),
        (Kind::Unsigned { lowest, highest }, Value::Unsigned(first)) => {
            format!("unsigned {lowest} {highest} {first}")
        }
        (Kind::Signed { lowest, highest }, Value::Signed(first)) => {
            format!("signed {lowest} {highest} {first}")
        }
        (Kind::Float { lowest, highest }, Value::Float(first)) => {
            format!("float {lowest:08X} {highest:08X} {first:08X}")
        }
        (_, Value::Text(first)) => format!("text{}", hex(first)),
        _ => unreachable!("a kind with another kind's first value"),
    };
    format!("attribute {} {read} {write} {} {kind}", spell_path(&one.path), u8::from(one.nullable))
}
