//! What refusals 2 and 11 ask of a schema, of what is held, and of the pages. Whatever the types leave no room for needs no test.

use super::schema::{Attribute, Kind, Schema};
use super::values::Values;
use super::{ATTRIBUTES, CLUSTERS, ENDPOINTS, TEXT_SIZE};

impl Schema<'_> {
    /// Counts, and the order of clusters.
    fn clusters_sound(&self) -> bool {
        let (mut endpoints, mut last) = (0, None);
        for cluster in self.clusters {
            let place = (cluster.endpoint, cluster.id);
            if last.is_some_and(|before| before >= place) {
                return false;
            }
            if last.is_none_or(|(endpoint, _)| endpoint != cluster.endpoint) {
                endpoints += 1;
            }
            last = Some(place);
        }
        self.clusters.len() <= CLUSTERS
            && self.attributes.len() <= ATTRIBUTES
            && endpoints <= ENDPOINTS
    }

    /// Whether a sign can be started with it.
    pub fn sound(&self) -> bool {
        let (mut least, mut texts) = (0, 0);
        self.clusters_sound()
            && self.attributes.iter().all(|attribute| {
                attribute.follows(&mut least, self.clusters.len())
                    && attribute.kind.first_sound(self.defaults, &mut texts)
            })
    }
}

impl Attribute {
    /// Not below the least key that may follow the one before, in a cluster that is there, with privileges that there are.
    #[inline]
    fn follows(&self, least: &mut u64, clusters: usize) -> bool {
        let key = u64::from(self.cluster) << 32 | u64::from(self.id);
        let rises = *least <= key;
        *least = key + 1;
        rises && usize::from(self.cluster) < clusters && self.read <= 4 && self.write <= 4
    }
}

impl Kind {
    /// Limits, and a first value within them; a text's rank is how many texts stand before it.
    fn first_sound(&self, defaults: &[u8], texts: &mut u16) -> bool {
        match *self {
            Kind::Bool { .. } => true,
            Kind::Unsigned { low, high, first } => low <= first && first <= high,
            Kind::Signed { low, high, first } => low <= first && first <= high,
            Kind::Float { low, high, first } => finite(low, high) && low <= first && first <= high,
            Kind::Text { start, len, rank } => {
                let ranked = rank == *texts;
                *texts += 1;
                ranked && factory_sound(defaults, start, len, false)
            }
        }
    }
}

/// A factory text: its length, its place in the page and, unless the page is ASCII, its bytes.
#[inline]
fn factory_sound(defaults: &[u8], start: u32, len: u16, ascii: bool) -> bool {
    let text = defaults.get(start as usize..).and_then(|rest| rest.get(..len.into()));
    usize::from(len) <= TEXT_SIZE && text.is_some_and(|text| ascii || right(text))
}

#[inline]
fn finite(low: f32, high: f32) -> bool {
    low.is_finite() && high.is_finite()
}

fn right(text: &[u8]) -> bool {
    std::str::from_utf8(text).is_ok()
}

/// Which pages are ASCII: no text of theirs needs a look of its own.
struct Ascii {
    defaults: bool,
    edits: bool,
}

impl Values {
    /// Schema with its factory texts, values, changed texts and pages, in one walk of the attributes.
    pub fn sound(&self, schema: &Schema, edits: &[u8]) -> bool {
        if !schema.clusters_sound() {
            return false;
        }
        let changed = self.edited[..schema.attributes.len()].contains(&true);
        let ascii =
            Ascii { defaults: schema.defaults.is_ascii(), edits: changed && edits.is_ascii() };
        let (mut least, mut texts) = (0, 0);
        for (i, attribute) in schema.attributes.iter().enumerate() {
            if !attribute.follows(&mut least, schema.clusters.len())
                || !self.attribute_sound(schema, edits, i, &ascii, &mut texts)
            {
                return false;
            }
        }
        edits.len() == TEXT_SIZE * usize::from(texts)
    }

    /// Limits with the first value, a text's rank and its factory text, and what is held; null is held as 0.
    #[inline]
    fn attribute_sound(
        &self,
        schema: &Schema,
        edits: &[u8],
        i: usize,
        ascii: &Ascii,
        texts: &mut u16,
    ) -> bool {
        let attribute = &schema.attributes[i];
        let (word, null) = (self.words[i], self.nulls[i]);
        let held = match attribute.kind {
            Kind::Bool { .. } => word <= 1,
            Kind::Unsigned { low, high, first } => {
                low <= first && first <= high && (null || low <= word && word <= high)
            }
            Kind::Signed { low, high, first } => {
                let held = word as i64;
                low <= first && first <= high && (null || low <= held && held <= high)
            }
            Kind::Float { low, high, first } => {
                let held = f32::from_bits(word as u32);
                let within = word >> 32 == 0 && low <= held && held <= high;
                finite(low, high) && low <= first && first <= high && (null || within)
            }
            Kind::Text { start, len, rank } => {
                let ranked = rank == *texts;
                *texts += 1;
                let shown = || self.shown(schema, edits, i, start, rank);
                let text = || shown().is_some_and(|text| ascii.edits || right(text));
                // A text that was never changed is its factory text.
                let held = match self.edited[i] {
                    true => null || word <= TEXT_SIZE as u64 && text(),
                    false => null || word == len.into(),
                };
                ranked && held && factory_sound(schema.defaults, start, len, ascii.defaults)
            }
        };
        held && (!null || attribute.nullable && word == 0)
    }
}
