//! The sign in ordinary Rust, made from a setup, beside what it is lent.

use reference::paths::Path;
use reference::value::{self, Value};

use crate::called::{Called, Last};
use crate::messages::Messages;
use crate::plain::{self, Answer, Attribute, Cluster, Entry, Kind, Schema, Values};
use crate::setup::{is_text, rows, word, Row, Setup, ATTRIBUTES, MESSAGE, TEXT_SIZE};

/// `CHECKED`: each call tests what refusal 2 asks.
pub struct Ordinary<const CHECKED: bool> {
    pub subject: u64,
    pub clusters: Vec<Cluster>,
    pub attributes: Vec<Attribute>,
    pub defaults: Vec<u8>,
    pub edits: Vec<u8>,
    pub table: Vec<Entry>,
    pub sign: plain::Sign<CHECKED>,
}

pub type Checked = Ordinary<true>;
pub type Unchecked = Ordinary<false>;

fn kind(row: &Row) -> Kind {
    match (&row.attribute.kind, &row.attribute.first) {
        (value::Kind::Bool, Value::Bool(first)) => Kind::Bool { first: *first },
        (value::Kind::Unsigned { lowest, highest }, Value::Unsigned(first)) => {
            Kind::Unsigned { low: *lowest, high: *highest, first: *first }
        }
        (value::Kind::Signed { lowest, highest }, Value::Signed(first)) => {
            Kind::Signed { low: *lowest, high: *highest, first: *first }
        }
        (value::Kind::Float { lowest, highest }, Value::Float(first)) => {
            let [low, high, first] = [*lowest, *highest, *first].map(f32::from_bits);
            Kind::Float { low, high, first }
        }
        (value::Kind::Text, Value::Text(first)) => {
            Kind::Text { start: row.start as u32, len: first.len() as u16, rank: row.rank as u16 }
        }
        _ => unreachable!("a kind with another kind's first value"),
    }
}

fn attribute(row: &Row) -> Attribute {
    Attribute {
        // A cluster that is not there is one past all others.
        cluster: row.cluster.unwrap_or(plain::CLUSTERS) as u8,
        id: row.attribute.path.attribute,
        read: row.read,
        write: row.write,
        nullable: row.attribute.nullable,
        kind: kind(row),
    }
}

/// What is set up, in the form that this sign keeps: a text's length is its word, and whether it was changed a mark of its row.
fn values(setup: &Setup) -> Values {
    let Setup { words, nulls, versions, .. } = setup.clone();
    let mut values = Values { words, nulls, edited: [false; ATTRIBUTES], versions };
    for (i, row) in rows(&setup.schema).iter().enumerate().take(ATTRIBUTES) {
        if is_text(row.attribute) {
            let mark = usize::from(setup.texts[row.rank]);
            values.edited[i] = mark != 0;
            values.words[i] = match mark {
                // A word that no text has, and a mark that none has, are a length that none has.
                _ if words[i] != 0 || mark > TEXT_SIZE + 1 => u64::MAX,
                _ if nulls[i] => 0,
                0 => word(&row.attribute.first),
                _ => mark as u64 - 1,
            };
        }
    }
    values
}

pub fn value_of(value: &Value) -> plain::Value<'_> {
    match value {
        Value::Null => plain::Value::Null,
        Value::Bool(flag) => plain::Value::Bool(*flag),
        Value::Unsigned(number) => plain::Value::Unsigned(*number),
        Value::Signed(number) => plain::Value::Signed(*number),
        Value::Float(bits) => plain::Value::Float(*bits),
        Value::Text(text) => plain::Value::Text(text),
    }
}

pub fn last(answer: Answer) -> Last {
    match answer {
        Answer::Sent(len) => Last { number: 0, len },
        Answer::Nothing => Last { number: 1, len: 0 },
        Answer::Refused(number) => Last { number, len: 0 },
    }
}

impl<const CHECKED: bool> Ordinary<CHECKED> {
    fn schema(&self) -> Schema<'_> {
        Schema {
            subject: self.subject,
            clusters: &self.clusters,
            attributes: &self.attributes,
            defaults: &self.defaults,
        }
    }

    /// The test of refusal 2 alone.
    pub fn valid(&self) -> bool {
        self.sign.sound(&self.schema(), &self.edits)
    }

    /// The messages given to the sign as it was set up, one after the other, each by a whole call: the last reply. One function of its own in the
    /// program, so that a profiler can tell it.
    #[inline(never)]
    pub fn run(&mut self, messages: &Messages, out: &mut [u8; MESSAGE]) -> Last {
        let Ordinary { clusters, attributes, defaults, edits, table, sign, .. } = self;
        let schema = Schema { subject: self.subject, clusters, attributes, defaults };
        let mut sign = sign.clone();
        let mut answer = Answer::Nothing;
        for message in messages.iter() {
            answer = sign.receive(&schema, edits, table, self.subject, message, out);
        }
        last(answer)
    }
}

impl<const CHECKED: bool> Called for Ordinary<CHECKED> {
    fn new(setup: &Setup) -> Self {
        let schema = &setup.schema;
        let clusters = schema.clusters.iter().map(|one| Cluster {
            endpoint: one.place.0,
            id: one.place.1,
            version: one.version,
        });
        let table = setup.table.iter().map(|one| Entry {
            privilege: one.privilege,
            subject: one.subject,
            endpoint: one.endpoint,
            cluster: one.cluster,
        });
        let values = values(setup);
        Ordinary {
            subject: schema.subject,
            clusters: clusters.collect(),
            attributes: rows(schema).iter().map(attribute).collect(),
            defaults: setup.defaults.clone(),
            edits: setup.edits.clone(),
            table: table.collect(),
            sign: plain::Sign::holding(values),
        }
    }

    fn start(setup: &Setup) -> Option<Self> {
        let mut made = Ordinary::new(setup);
        made.sign = plain::Sign::start(&made.schema())?;
        Some(made)
    }

    fn restart(&mut self) {
        self.sign = plain::Sign::start(&self.schema()).expect("it was started before");
    }

    fn receive(&mut self, subject: u64, message: &[u8], out: &mut [u8]) -> Last {
        let Ordinary { clusters, attributes, defaults, edits, table, sign, .. } = self;
        let schema = Schema { subject: self.subject, clusters, attributes, defaults };
        last(sign.receive(&schema, edits, table, subject, message, out))
    }

    fn change(&mut self, path: &Path, value: &Value) -> u8 {
        let Ordinary { clusters, attributes, defaults, edits, sign, .. } = self;
        let schema = Schema { subject: self.subject, clusters, attributes, defaults };
        let path = (path.endpoint, path.cluster, path.attribute);
        sign.change(&schema, edits, path, &value_of(value))
    }
}
