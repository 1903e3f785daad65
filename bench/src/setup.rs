//! A sign as it is set up: its schema, what it holds, its two pages, its access table. Every sign that is called here is made from one.

use reference::acl::Entry;
use reference::schema::{Attribute, Schema};
use reference::value::Value;

pub const ATTRIBUTES: usize = 256;
pub const CLUSTERS: usize = 32;
pub const TEXTS: usize = 256;
pub const TEXT_SIZE: usize = 200;
pub const MESSAGE: usize = 1032;

/// One access entry: every privilege, for anyone, everywhere.
pub const OPEN: Entry = Entry { privilege: 4, subject: None, endpoint: None, cluster: None };

#[derive(Clone)]
pub struct Setup {
    pub schema: Schema,
    pub table: Vec<Entry>,
    /// Of a text 0.
    pub words: [u64; ATTRIBUTES],
    pub nulls: [bool; ATTRIBUTES],
    /// By rank: 0 for a text that was never changed, its length and one for one that was.
    pub texts: [u16; TEXTS],
    pub versions: [u32; CLUSTERS],
    pub defaults: Vec<u8>,
    pub edits: Vec<u8>,
}

/// An attribute beside what its place in the schema says.
pub struct Row<'a> {
    pub attribute: &'a Attribute,
    /// Which of the schema's clusters it is in, if it is there.
    pub cluster: Option<usize>,
    /// Where a text stands in the page of defaults, and how many texts stand before it.
    pub start: usize,
    pub rank: usize,
    /// The privileges as numbers: 0 for nobody, and 255 for a 0 that was said, which is no privilege.
    pub read: u8,
    pub write: u8,
}

fn privilege(said: Option<u8>) -> u8 {
    match said {
        None => 0,
        Some(0) => u8::MAX,
        Some(number) => number,
    }
}

pub fn rows(schema: &Schema) -> Vec<Row<'_>> {
    let (mut start, mut rank) = (0, 0);
    let mut rows = Vec::new();
    for attribute in &schema.attributes {
        let place = attribute.path.place();
        let cluster = schema.clusters.iter().position(|one| one.place == place);
        let (read, write) = (privilege(attribute.read), privilege(attribute.write));
        rows.push(Row { attribute, cluster, start, rank, read, write });
        if let Value::Text(text) = &attribute.first {
            start += text.len();
            rank += 1;
        }
    }
    rows
}

pub fn is_text(attribute: &Attribute) -> bool {
    matches!(attribute.first, Value::Text(_))
}

/// A value as one word; of a text its length.
pub fn word(value: &Value) -> u64 {
    match value {
        Value::Null => 0,
        Value::Bool(flag) => u64::from(*flag),
        Value::Unsigned(number) => *number,
        Value::Signed(number) => *number as u64,
        Value::Float(bits) => u64::from(*bits),
        Value::Text(text) => text.len() as u64,
    }
}

impl Setup {
    /// First values, the factory texts one after the other, and a page of edits of its size.
    pub fn new(schema: Schema, table: Vec<Entry>) -> Setup {
        let mut setup = Setup {
            schema: Schema::default(),
            table,
            words: [0; ATTRIBUTES],
            nulls: [false; ATTRIBUTES],
            texts: [0; TEXTS],
            versions: [0; CLUSTERS],
            defaults: Vec::new(),
            edits: Vec::new(),
        };
        for (held, attribute) in setup.words.iter_mut().zip(&schema.attributes) {
            *held = if is_text(attribute) { 0 } else { word(&attribute.first) };
        }
        for (held, cluster) in setup.versions.iter_mut().zip(&schema.clusters) {
            *held = cluster.version;
        }
        for attribute in &schema.attributes {
            if let Value::Text(text) = &attribute.first {
                setup.defaults.extend_from_slice(text);
                setup.edits.extend([0; TEXT_SIZE]);
            }
        }
        setup.schema = schema;
        setup
    }

    /// The same with every text changed once.
    pub fn edited(mut self) -> Setup {
        self.edit_all();
        self
    }

    /// Every text changed once: shown from the page of edits from then on.
    pub fn edit_all(&mut self) {
        for row in rows(&self.schema) {
            if let Value::Text(text) = &row.attribute.first {
                let place = TEXT_SIZE * row.rank;
                self.edits[place..place + text.len()].copy_from_slice(text);
                self.texts[row.rank] = text.len() as u16 + 1;
            }
        }
    }
}
