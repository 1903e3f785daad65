//! The checked sign in ordinary Rust, made from the words that ours is lent. What its types leave no room for has no form there.

use crate::library::{
    Sign, ATTRIBUTE_COUNT_WORD, CLUSTER_COUNT_WORD, FACTORY, FIRST, HIGH, KEY, LOW, PATH, SPARE,
    TRAITS, VERSION,
};
use crate::ordinary::Checked;
use crate::plain::{self, Attribute, Cluster, Entry, Kind, Values};
use crate::setup::{ATTRIBUTES, CLUSTERS, TEXTS, TEXT_SIZE};

/// A sign that has served nothing yet.
fn checked(sign: &Sign) -> Option<Checked> {
    let words = &sign.schema[..];
    let count =
        |at: usize, limit: usize| Some(words[at] as usize).filter(|_| words[at] <= limit as u64);
    let clusters = 0..count(CLUSTER_COUNT_WORD, CLUSTERS)?;
    let attributes = 0..count(ATTRIBUTE_COUNT_WORD, ATTRIBUTES)?;
    if words[SPARE..PATH].iter().any(|word| *word != 0) {
        return None;
    }
    let attributes: Vec<Attribute> =
        attributes.map(|i| attribute(words, i)).collect::<Option<_>>()?;
    Some(Checked {
        subject: sign.subject,
        clusters: clusters.map(|k| cluster(words, k)).collect::<Option<_>>()?,
        sign: plain::Sign::holding(values(sign, &attributes)?),
        attributes,
        defaults: sign.defaults.clone(),
        edits: sign.edits.borrow().clone(),
        table: vec![Entry { privilege: 4, subject: None, endpoint: None, cluster: None }],
    })
}

fn cluster(words: &[u64], k: usize) -> Option<Cluster> {
    Some(Cluster {
        endpoint: (words[PATH + k] >> 32).try_into().ok()?,
        id: words[PATH + k] as u32,
        version: words[VERSION + k].try_into().ok()?,
    })
}

fn attribute(words: &[u64], i: usize) -> Option<Attribute> {
    let traits = words[TRAITS + i];
    let [_, nullable, read, ..] = traits.to_le_bytes();
    Some(Attribute {
        cluster: (words[KEY + i] >> 32).try_into().ok()?,
        id: words[KEY + i] as u32,
        read,
        write: (traits >> 24).try_into().ok()?,
        nullable: Some(nullable == 1).filter(|_| nullable <= 1)?,
        kind: kind(words, i)?,
    })
}

fn kind(words: &[u64], i: usize) -> Option<Kind> {
    let three = [LOW, HIGH, FIRST].map(|column| words[column + i]);
    let [low, high, first] = three;
    Some(match words[TRAITS + i] as u8 {
        0 => Kind::Bool { first: Some(first == 1).filter(|_| first <= 1)? },
        1 => Kind::Unsigned { low, high, first },
        2 => {
            let [low, high, first] = three.map(|word| word as i64);
            Kind::Signed { low, high, first }
        }
        3 => {
            let float = |word: u64| u32::try_from(word).ok().map(f32::from_bits);
            Kind::Float { low: float(low)?, high: float(high)?, first: float(first)? }
        }
        4 => {
            let rank = usize::try_from(first).ok().filter(|rank| *rank < TEXTS)?;
            let factory = words[FACTORY + rank];
            let len = (factory as u32).try_into().ok()?;
            Kind::Text { start: (factory >> 32) as u32, len, rank: rank as u16 }
        }
        _ => return None,
    })
}

/// A text's length is its word, and whether it was changed a mark of its row.
fn values(sign: &Sign, attributes: &[Attribute]) -> Option<Values> {
    let held = &sign.held;
    let mut values = Values {
        words: held.words,
        nulls: held.nulls,
        edited: [false; ATTRIBUTES],
        versions: held.versions,
    };
    for (i, attribute) in attributes.iter().enumerate() {
        if let Kind::Text { len, rank, .. } = attribute.kind {
            let mark = held.texts[usize::from(rank)];
            if held.words[i] != 0 || usize::from(mark) > TEXT_SIZE + 1 {
                return None;
            }
            values.edited[i] = mark != 0;
            values.words[i] = match mark {
                _ if held.nulls[i] => 0,
                0 => len.into(),
                _ => u64::from(mark) - 1,
            };
        }
    }
    Some(values)
}

/// The checked sign in ordinary Rust refuses the same plans, values and pages, if it has a form for them.
pub fn hold(name: &str, sign: &Sign, right: bool) {
    let valid = checked(sign).is_some_and(|checked| checked.valid());
    assert_eq!(valid, right, "{name}: checked Rust");
}
