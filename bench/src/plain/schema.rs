//! What a sign serves: its clusters, its attributes with their kinds, its factory texts.

use super::reader::Value;
use super::status::*;
use super::TEXT_SIZE;

#[derive(Clone, Copy)]
pub enum Kind {
    Bool {
        first: bool,
    },
    Unsigned {
        low: u64,
        high: u64,
        first: u64,
    },
    Signed {
        low: i64,
        high: i64,
        first: i64,
    },
    Float {
        low: f32,
        high: f32,
        first: f32,
    },
    /// Where its factory text stands, and which text of the schema it is.
    Text {
        start: u32,
        len: u16,
        rank: u16,
    },
}

#[derive(Clone, Copy)]
pub struct Attribute {
    /// Which of the schema's clusters it is in.
    pub cluster: u8,
    pub id: u32,
    /// The privilege that reading needs, and that writing does; 0: nobody may.
    pub read: u8,
    pub write: u8,
    pub nullable: bool,
    pub kind: Kind,
}

#[derive(Clone, Copy)]
pub struct Cluster {
    pub endpoint: u16,
    pub id: u32,
    /// The version that it starts with.
    pub version: u32,
}

/// Clusters rise by endpoint and id, attributes by cluster and id.
pub struct Schema<'a> {
    pub subject: u64,
    pub clusters: &'a [Cluster],
    pub attributes: &'a [Attribute],
    pub defaults: &'a [u8],
}

impl Schema<'_> {
    /// Where the attribute of a path stands, or the status that says what is not there.
    pub fn locate(&self, (endpoint, cluster, attribute): (u16, u32, u32)) -> Result<usize, u8> {
        let same = |one: &Cluster| one.endpoint == endpoint && one.id == cluster;
        let Some(k) = self.clusters.iter().position(same) else {
            let there = self.clusters.iter().any(|one| one.endpoint == endpoint);
            return Err(if there { UNSUPPORTED_CLUSTER } else { UNSUPPORTED_ENDPOINT });
        };
        let key = |one: &Attribute| (usize::from(one.cluster), one.id);
        let found = self.attributes.binary_search_by_key(&(k, attribute), key);
        found.map_err(|_| UNSUPPORTED_ATTRIBUTE)
    }

    pub fn cluster_of(&self, attribute: &Attribute) -> &Cluster {
        &self.clusters[usize::from(attribute.cluster)]
    }
}

fn within<T: PartialOrd>(low: T, value: T, high: T) -> bool {
    low <= value && value <= high
}

impl Attribute {
    /// The word that a value is stored as, a text's its length; or the status that refuses it.
    pub fn judge(&self, value: &Value) -> Result<u64, u8> {
        let (allowed, word) = match (self.kind, *value) {
            (_, Value::Null) => (self.nullable, 0),
            (Kind::Bool { .. }, Value::Bool(flag)) => (true, flag.into()),
            (Kind::Unsigned { low, high, .. }, Value::Unsigned(x)) => (within(low, x, high), x),
            (Kind::Signed { low, high, .. }, Value::Signed(x)) => (within(low, x, high), x as u64),
            (Kind::Float { low, high, .. }, Value::Float(bits)) => {
                (within(low, f32::from_bits(bits), high), bits.into())
            }
            (Kind::Text { .. }, Value::Text(text)) => {
                let right = text.len() <= TEXT_SIZE && std::str::from_utf8(text).is_ok();
                (right, text.len() as u64)
            }
            _ => return Err(INVALID_DATA_TYPE),
        };
        if allowed {
            Ok(word)
        } else {
            Err(CONSTRAINT_ERROR)
        }
    }
}
