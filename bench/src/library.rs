//! The proved sign: the functions of its static library as C sees them, the memory that they are lent, and safe calls of them. All that the benchmark knows
//! of the library's interface stands here.

use std::cell::RefCell;

use reference::paths::Path;
use reference::value::{Kind, Value};

use crate::called::{Called, Last};
use crate::messages::Messages;
use crate::setup::{is_text, rows, word, Row, Setup, ATTRIBUTES, CLUSTERS, MESSAGE, TEXTS};

pub const PAYLOAD: usize = 1024;

// The schema's words (crates/node_schema/src/lib.rt): a header, then columns.
pub const CLUSTER_COUNT_WORD: usize = 0;
pub const ATTRIBUTE_COUNT_WORD: usize = 1;
const SUBJECT_WORD: usize = 2;
pub const SPARE: usize = 3;
pub const PATH: usize = 16;
pub const VERSION: usize = PATH + CLUSTERS;
pub const KEY: usize = VERSION + CLUSTERS;
pub const TRAITS: usize = KEY + ATTRIBUTES;
pub const LOW: usize = TRAITS + ATTRIBUTES;
pub const HIGH: usize = LOW + ATTRIBUTES;
pub const FIRST: usize = HIGH + ATTRIBUTES;
pub const FACTORY: usize = FIRST + ATTRIBUTES;
const WORDS: usize = FACTORY + TEXTS;

// The words of an exchange row (crates/server_selection/src/request.rt): the paths of the request, a filter for each cluster, and how the exchange stands.
const PATHS: usize = 16;
const FILTERS_AT: usize = 3 * PATHS;
pub const STANDING_AT: usize = FILTERS_AT + CLUSTERS;
const ROW_WORDS: usize = STANDING_AT + 10;
/// A field of a path that was left out, and the filter of a cluster that has none.
const ANY: u64 = 1 << 32;

/// What `server_part` answers.
#[repr(C)]
#[derive(Clone, Copy)]
pub struct Part {
    pub end: usize,
    pub path: usize,
    pub index: usize,
    pub more: bool,
}

// A slice is its address and its length.
extern "C" {
    fn server_valid(
        w: *const u64,
        words: *const u64,
        nulls: *const bool,
        texts: *const u16,
        versions: *const u32,
        defaults: *const u8,
        defaults_len: usize,
        edits: *const u8,
        edits_len: usize,
    ) -> bool;
    fn server_part(
        w: *const u64,
        words: *const u64,
        nulls: *const bool,
        texts: *const u16,
        versions: *const u32,
        defaults: *const u8,
        defaults_len: usize,
        edits: *const u8,
        edits_len: usize,
        row: *const u64,
        asked: usize,
        path: usize,
        index: usize,
        out: *mut u8,
        out_len: usize,
    ) -> Part;
    fn server_start(
        w: *const u64,
        defaults: *const u8,
        defaults_len: usize,
        words: *mut u64,
        nulls: *mut bool,
        texts: *mut u16,
        versions: *mut u32,
        row: *mut u64,
        kept: *mut u8,
    ) -> u8;
    fn server_receive(
        w: *const u64,
        defaults: *const u8,
        defaults_len: usize,
        edits: *mut u8,
        edits_len: usize,
        words: *mut u64,
        nulls: *mut bool,
        texts: *mut u16,
        versions: *mut u32,
        row: *mut u64,
        kept: *mut u8,
        subject: u64,
        message: *const u8,
        message_len: usize,
        out: *mut u8,
        out_len: usize,
    ) -> Last;
    fn server_change(
        w: *const u64,
        defaults: *const u8,
        defaults_len: usize,
        edits: *mut u8,
        edits_len: usize,
        words: *mut u64,
        nulls: *mut bool,
        texts: *mut u16,
        versions: *mut u32,
        row: *const u64,
        endpoint: u16,
        cluster: u32,
        attribute: u32,
        code: u8,
        word: u64,
        text: *const u8,
        text_len: usize,
    ) -> u8;
}

/// The schema's words.
fn words_of(setup: &Setup) -> Box<[u64; WORDS]> {
    let mut w = Box::new([0; WORDS]);
    let schema = &setup.schema;
    w[CLUSTER_COUNT_WORD] = schema.clusters.len() as u64;
    w[ATTRIBUTE_COUNT_WORD] = schema.attributes.len() as u64;
    w[SUBJECT_WORD] = schema.subject;
    for (k, cluster) in schema.clusters.iter().enumerate().take(CLUSTERS) {
        w[PATH + k] = u64::from(cluster.place.0) << 32 | u64::from(cluster.place.1);
        w[VERSION + k] = cluster.version.into();
    }
    for (i, row) in rows(schema).iter().enumerate().take(ATTRIBUTES) {
        let Row { attribute, cluster, start, rank, read, write } = row;
        let (code, low, high) = match attribute.kind {
            Kind::Bool => (0, 0, 0),
            Kind::Unsigned { lowest, highest } => (1, lowest, highest),
            Kind::Signed { lowest, highest } => (2, lowest as u64, highest as u64),
            Kind::Float { lowest, highest } => (3, lowest.into(), highest.into()),
            Kind::Text => (4, 0, 0),
        };
        let is_text = is_text(attribute);
        // A cluster that is not there is one past all rows.
        let cluster = cluster.unwrap_or(CLUSTERS) as u64;
        w[KEY + i] = cluster << 32 | u64::from(attribute.path.attribute);
        w[TRAITS + i] = code
            | u64::from(attribute.nullable) << 8
            | u64::from(*read) << 16
            | u64::from(*write) << 24;
        w[LOW + i] = low;
        w[HIGH + i] = high;
        w[FIRST + i] = if is_text { *rank as u64 } else { word(&attribute.first) };
        if is_text {
            w[FACTORY + rank] = (*start as u64) << 32 | word(&attribute.first);
        }
    }
    w
}

/// What a sign holds, and the exchange that it serves: memory that each call is lent.
#[derive(Clone, Debug, PartialEq)]
pub struct Held {
    pub words: [u64; ATTRIBUTES],
    pub nulls: [bool; ATTRIBUTES],
    pub texts: [u16; TEXTS],
    pub versions: [u32; CLUSTERS],
    pub row: [u64; ROW_WORDS],
    kept: [u8; MESSAGE],
}

impl Held {
    /// What is set up, with nothing served yet.
    fn of(setup: &Setup) -> Held {
        Held {
            words: setup.words,
            nulls: setup.nulls,
            texts: setup.texts,
            versions: setup.versions,
            row: [0; ROW_WORDS],
            kept: [0; MESSAGE],
        }
    }

    /// Memory that nobody has written to.
    fn unwritten() -> Held {
        Held {
            words: [u64::MAX; ATTRIBUTES],
            nulls: [true; ATTRIBUTES],
            texts: [u16::MAX; TEXTS],
            versions: [7; CLUSTERS],
            row: [u64::MAX; ROW_WORDS],
            kept: [0xA5; MESSAGE],
        }
    }

    fn start(&mut self, schema: &[u64; WORDS], defaults: &[u8]) -> u8 {
        // SAFETY: the arrays have the lengths that the library declares, each slice its own, and only the arrays of `self` are written.
        unsafe {
            server_start(
                schema.as_ptr(),
                defaults.as_ptr(),
                defaults.len(),
                self.words.as_mut_ptr(),
                self.nulls.as_mut_ptr(),
                self.texts.as_mut_ptr(),
                self.versions.as_mut_ptr(),
                self.row.as_mut_ptr(),
                self.kept.as_mut_ptr(),
            )
        }
    }

    fn receive(
        &mut self,
        schema: &[u64; WORDS],
        defaults: &[u8],
        edits: &mut [u8],
        subject: u64,
        message: &[u8],
        out: &mut [u8],
    ) -> Last {
        // SAFETY: as above; `edits` and `out` are written too.
        unsafe {
            server_receive(
                schema.as_ptr(),
                defaults.as_ptr(),
                defaults.len(),
                edits.as_mut_ptr(),
                edits.len(),
                self.words.as_mut_ptr(),
                self.nulls.as_mut_ptr(),
                self.texts.as_mut_ptr(),
                self.versions.as_mut_ptr(),
                self.row.as_mut_ptr(),
                self.kept.as_mut_ptr(),
                subject,
                message.as_ptr(),
                message.len(),
                out.as_mut_ptr(),
                out.len(),
            )
        }
    }
}

/// The code that `server_change` and `cache_begin_write` know a value by.
pub fn code(value: &Value) -> u8 {
    match value {
        Value::Null => 0,
        Value::Bool(_) => 1,
        Value::Unsigned(_) => 2,
        Value::Signed(_) => 3,
        Value::Float(_) => 4,
        Value::Text(_) => 5,
    }
}

/// A sign beside what it is lent. The library's calls have one access entry that grants everything.
#[derive(Clone, PartialEq)]
pub struct Sign {
    pub schema: Box<[u64; WORDS]>,
    pub subject: u64,
    pub defaults: Vec<u8>,
    /// May be written by a run, which leaves nothing else behind.
    pub edits: RefCell<Vec<u8>>,
    pub held: Held,
    /// A row that asks for everything.
    everything: [u64; ROW_WORDS],
}

impl Sign {
    /// The schema is broken where it is looked at first: every call is refused at once.
    pub fn break_first(&mut self) {
        self.schema[SPARE] = 1;
    }

    /// The exchange row: the request that it keeps, and how the exchange stands, of which refusal 2 asks.
    pub fn row(&mut self) -> (&mut [u64], &mut [u64]) {
        self.held.row.split_at_mut(STANDING_AT)
    }

    /// The test of refusal 2: whether schema, values and pages keep the rules.
    pub fn valid(&self) -> bool {
        let (held, edits) = (&self.held, self.edits.borrow());
        // SAFETY: the arrays have the lengths that the library declares, each slice its own, and the library writes to none.
        unsafe {
            server_valid(
                self.schema.as_ptr(),
                held.words.as_ptr(),
                held.nulls.as_ptr(),
                held.texts.as_ptr(),
                held.versions.as_ptr(),
                self.defaults.as_ptr(),
                self.defaults.len(),
                edits.as_ptr(),
                edits.len(),
            )
        }
    }

    /// One part of a read of everything, from this place on. The sign must be valid.
    pub fn part(&self, path: usize, index: usize, out: &mut [u8; PAYLOAD]) -> Part {
        let (held, edits) = (&self.held, self.edits.borrow());
        // SAFETY: as above; `out` is as long as the contract asks, one path is asked for, and the schema is well-formed, which `valid` was asked before.
        unsafe {
            server_part(
                self.schema.as_ptr(),
                held.words.as_ptr(),
                held.nulls.as_ptr(),
                held.texts.as_ptr(),
                held.versions.as_ptr(),
                self.defaults.as_ptr(),
                self.defaults.len(),
                edits.as_ptr(),
                edits.len(),
                self.everything.as_ptr(),
                1,
                path,
                index,
                out.as_mut_ptr(),
                out.len(),
            )
        }
    }

    /// A whole read by its parts alone: how many there are.
    pub fn parts(&self, out: &mut [u8; PAYLOAD]) -> usize {
        let mut part = self.part(0, 0, out);
        let mut parts = 1;
        while part.more {
            part = self.part(part.path, part.index, out);
            parts += 1;
        }
        parts
    }

    /// The messages given to the sign as it stands, one after the other, each by a whole call: the last reply. Only the page of edits is written. One function
    /// of its own in the program, so that a profiler can tell it.
    #[inline(never)]
    pub fn run(&self, messages: &Messages, out: &mut [u8]) -> Last {
        let (mut held, mut edits) = (self.held.clone(), self.edits.borrow_mut());
        let mut last = Last { number: 1, len: 0 };
        for message in messages.iter() {
            last =
                held.receive(&self.schema, &self.defaults, &mut edits, self.subject, message, out);
        }
        last
    }

    /// The reply to each of these messages, given one after the other.
    pub fn replies(&self, messages: &Messages) -> Messages {
        let mut all = Messages::default();
        for k in 1..=messages.ends.len() {
            let mut out = [0; MESSAGE];
            let last = self.run(&messages.first(k), &mut out);
            all.push(&out[..last.len]);
        }
        all
    }
}

impl Called for Sign {
    fn new(setup: &Setup) -> Sign {
        let mut everything = [0; ROW_WORDS];
        everything[..3].fill(ANY);
        everything[FILTERS_AT..STANDING_AT].fill(ANY);
        Sign {
            schema: words_of(setup),
            subject: setup.schema.subject,
            defaults: setup.defaults.clone(),
            edits: RefCell::new(setup.edits.clone()),
            held: Held::of(setup),
            everything,
        }
    }

    /// Where it is refused, what was lent stays as it was.
    fn start(setup: &Setup) -> Option<Sign> {
        let mut sign = Sign { held: Held::unwritten(), ..Sign::new(setup) };
        let number = sign.held.start(&sign.schema, &sign.defaults);
        let untouched = sign.held == Held::unwritten();
        assert_eq!((number == 0, untouched), (number != 11, number == 11), "0 or 11");
        (number == 0).then_some(sign)
    }

    fn restart(&mut self) {
        assert_eq!(self.held.start(&self.schema, &self.defaults), 0, "it was started before");
    }

    fn receive(&mut self, subject: u64, message: &[u8], out: &mut [u8]) -> Last {
        let Sign { schema, defaults, edits, held, .. } = self;
        held.receive(schema, defaults, edits.get_mut(), subject, message, out)
    }

    fn change(&mut self, path: &Path, value: &Value) -> u8 {
        let Sign { schema, defaults, edits, held, .. } = self;
        let edits = edits.get_mut();
        let text: &[u8] = if let Value::Text(text) = value { text } else { &[] };
        // SAFETY: the arrays have the lengths that the library declares, each slice its own; the row is not written.
        unsafe {
            server_change(
                schema.as_ptr(),
                defaults.as_ptr(),
                defaults.len(),
                edits.as_mut_ptr(),
                edits.len(),
                held.words.as_mut_ptr(),
                held.nulls.as_mut_ptr(),
                held.texts.as_mut_ptr(),
                held.versions.as_mut_ptr(),
                held.row.as_ptr(),
                path.endpoint,
                path.cluster,
                path.attribute,
                code(value),
                word(value),
                text.as_ptr(),
                text.len(),
            )
        }
    }
}
