//! What a sign holds.

use super::reader::Value;
use super::schema::{Kind, Schema};
use super::status::SUCCESS;
use super::{ATTRIBUTES, CLUSTERS, TEXT_SIZE};

#[derive(Clone)]
pub struct Values {
    /// Of a text its length; its bytes lie in a page.
    pub words: [u64; ATTRIBUTES],
    pub nulls: [bool; ATTRIBUTES],
    /// Texts that were changed, and are shown from the page of edits.
    pub edited: [bool; ATTRIBUTES],
    pub versions: [u32; CLUSTERS],
}

impl Values {
    /// The first values of a schema.
    pub fn first(schema: &Schema) -> Values {
        let mut values = Values {
            words: [0; ATTRIBUTES],
            nulls: [false; ATTRIBUTES],
            edited: [false; ATTRIBUTES],
            versions: [0; CLUSTERS],
        };
        for (word, attribute) in values.words.iter_mut().zip(schema.attributes) {
            *word = match attribute.kind {
                Kind::Bool { first } => first.into(),
                Kind::Unsigned { first, .. } => first,
                Kind::Signed { first, .. } => first as u64,
                Kind::Float { first, .. } => first.to_bits().into(),
                Kind::Text { len, .. } => len.into(),
            };
        }
        for (version, cluster) in values.versions.iter_mut().zip(schema.clusters) {
            *version = cluster.version;
        }
        values
    }

    /// The text of an attribute as it is shown, if it lies in its page; an empty one lies anywhere.
    #[inline]
    pub fn shown<'a>(
        &self,
        schema: &Schema<'a>,
        edits: &'a [u8],
        i: usize,
        start: u32,
        rank: u16,
    ) -> Option<&'a [u8]> {
        let (page, start) = if self.edited[i] {
            (edits, TEXT_SIZE * usize::from(rank))
        } else {
            (schema.defaults, start as usize)
        };
        page.get(start..).unwrap_or(&[]).get(..self.words[i] as usize)
    }

    #[inline]
    pub fn value<'a>(&self, schema: &Schema<'a>, edits: &'a [u8], i: usize) -> Value<'a> {
        if self.nulls[i] {
            return Value::Null;
        }
        let word = self.words[i];
        match schema.attributes[i].kind {
            Kind::Bool { .. } => Value::Bool(word == 1),
            Kind::Unsigned { .. } => Value::Unsigned(word),
            Kind::Signed { .. } => Value::Signed(word as i64),
            Kind::Float { .. } => Value::Float(word as u32),
            Kind::Text { start, rank, .. } => {
                Value::Text(self.shown(schema, edits, i, start, rank).unwrap_or(&[]))
            }
        }
    }

    /// Judges a value and stores it: its status. A change adds one to the cluster's version.
    pub fn offer(&mut self, schema: &Schema, edits: &mut [u8], i: usize, value: &Value) -> u8 {
        let attribute = &schema.attributes[i];
        let word = match attribute.judge(value) {
            Ok(word) => word,
            Err(status) => return status,
        };
        if let (Kind::Text { start, rank, .. }, Value::Text(text)) = (attribute.kind, value) {
            if !self.nulls[i] && self.shown(schema, edits, i, start, rank) == Some(*text) {
                return SUCCESS;
            }
            let place = TEXT_SIZE * usize::from(rank);
            edits[place..place + text.len()].copy_from_slice(text);
            self.edited[i] = true;
        } else if self.nulls[i] == (*value == Value::Null) && self.words[i] == word {
            return SUCCESS;
        }
        self.nulls[i] = *value == Value::Null;
        self.words[i] = word;
        let version = &mut self.versions[usize::from(attribute.cluster)];
        *version = version.wrapping_add(1);
        SUCCESS
    }
}
