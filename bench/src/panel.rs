//! The proved panel: the functions of its static library as C sees them, the memory that they are lent, and safe calls of them. All that the benchmark knows
//! of the library's interface stands here.

use std::collections::BTreeMap;

use reference::paths::{ClusterPath, Path};
use reference::value::Value;

use crate::called::{CalledPanel, Last};
use crate::library::code;
use crate::messages::Messages;
use crate::setup::{word, ATTRIBUTES, CLUSTERS, MESSAGE, TEXTS, TEXT_SIZE};

/// How long the page of texts is.
pub const PAGE: usize = TEXTS * TEXT_SIZE;
/// The order of the clusters stands behind that of the entries.
pub const ORDER: usize = ATTRIBUTES + CLUSTERS;
/// The version of an entry that has none.
pub const NO_VERSION: u64 = 1 << 32;

// The counts and the newest request in their words (crates/cache_state/src/words.rt).
pub const CLUSTER_COUNT: usize = 0;
pub const COUNT: usize = 1;
pub const PRIMED: usize = 2;
pub const USED: usize = 3;
pub const EXCHANGE: usize = 4;
pub const STAGE: usize = 5;
pub const TURN: usize = 6;
pub const STATUS: usize = 7;
pub const ENDPOINT: usize = 8;
pub const CLUSTER: usize = 9;
pub const ATTRIBUTE: usize = 10;
pub const UNKNOWN: usize = 11;
pub const LENGTH: usize = 12;
pub const SPARE: usize = 13;
pub const ASKED: usize = 16;

/// What a panel holds, its newest request and its newest message: memory that each call is lent (crates/cache_entries/src/lib.rt has the columns).
#[derive(Clone, Debug, PartialEq)]
pub struct Held {
    pub clusters: [u64; CLUSTERS],
    pub keys: [u64; ATTRIBUTES],
    pub versions: [u64; ATTRIBUTES],
    pub kinds: [u8; ATTRIBUTES],
    pub words: [u64; ATTRIBUTES],
    pub order: [u8; ORDER],
    pub lengths: [u16; TEXTS],
    pub asked: [u64; ASKED],
    pub kept: [u8; MESSAGE],
}

// A slice is its address and its length.
extern "C" {
    fn cache_fresh(
        clusters: *mut u64,
        keys: *mut u64,
        versions: *mut u64,
        kinds: *mut u8,
        words: *mut u64,
        order: *mut u8,
        lengths: *mut u16,
        asked: *mut u64,
        kept: *mut u8,
    );
    fn cache_right(
        page: *const u8,
        page_len: usize,
        clusters: *const u64,
        keys: *const u64,
        versions: *const u64,
        kinds: *const u8,
        words: *const u64,
        order: *const u8,
        lengths: *const u16,
        asked: *const u64,
    ) -> bool;
    fn cache_begin_read(
        page: *const u8,
        page_len: usize,
        clusters: *const u64,
        keys: *const u64,
        versions: *const u64,
        kinds: *const u8,
        words: *const u64,
        order: *const u8,
        lengths: *const u16,
        asked: *mut u64,
        kept: *mut u8,
        out: *mut u8,
        out_len: usize,
    ) -> Last;
    fn cache_begin_write(
        page: *const u8,
        page_len: usize,
        clusters: *const u64,
        keys: *const u64,
        versions: *const u64,
        kinds: *const u8,
        words: *const u64,
        order: *const u8,
        lengths: *const u16,
        asked: *mut u64,
        kept: *mut u8,
        endpoint: u16,
        cluster: u32,
        attribute: u32,
        given: bool,
        version: u32,
        code: u8,
        word: u64,
        text: *const u8,
        text_len: usize,
        out: *mut u8,
        out_len: usize,
    ) -> Last;
    fn cache_resend(
        page: *const u8,
        page_len: usize,
        clusters: *const u64,
        keys: *const u64,
        versions: *const u64,
        kinds: *const u8,
        words: *const u64,
        order: *const u8,
        lengths: *const u16,
        asked: *const u64,
        kept: *const u8,
        out: *mut u8,
        out_len: usize,
    ) -> Last;
    fn cache_receive(
        page: *mut u8,
        page_len: usize,
        clusters: *mut u64,
        keys: *mut u64,
        versions: *mut u64,
        kinds: *mut u8,
        words: *mut u64,
        order: *mut u8,
        lengths: *mut u16,
        asked: *mut u64,
        kept: *mut u8,
        message: *const u8,
        message_len: usize,
        out: *mut u8,
        out_len: usize,
    ) -> Last;
}

impl Held {
    /// Memory that nobody has written to.
    pub fn unwritten() -> Held {
        Held {
            clusters: [u64::MAX; CLUSTERS],
            keys: [u64::MAX; ATTRIBUTES],
            versions: [u64::MAX; ATTRIBUTES],
            kinds: [0xA5; ATTRIBUTES],
            words: [u64::MAX; ATTRIBUTES],
            order: [0xA5; ORDER],
            lengths: [u16::MAX; TEXTS],
            asked: [u64::MAX; ASKED],
            kept: [0xA5; MESSAGE],
        }
    }

    /// Made a fresh panel's.
    pub fn refresh(&mut self) {
        // SAFETY: the arrays have the lengths that the library declares.
        unsafe {
            cache_fresh(
                self.clusters.as_mut_ptr(),
                self.keys.as_mut_ptr(),
                self.versions.as_mut_ptr(),
                self.kinds.as_mut_ptr(),
                self.words.as_mut_ptr(),
                self.order.as_mut_ptr(),
                self.lengths.as_mut_ptr(),
                self.asked.as_mut_ptr(),
                self.kept.as_mut_ptr(),
            );
        }
    }

    /// The test of refusal 2.
    pub fn valid(&self, page: &[u8]) -> bool {
        // SAFETY: the arrays have the lengths that the library declares, the slice its own, and the library writes to none.
        unsafe {
            cache_right(
                page.as_ptr(),
                page.len(),
                self.clusters.as_ptr(),
                self.keys.as_ptr(),
                self.versions.as_ptr(),
                self.kinds.as_ptr(),
                self.words.as_ptr(),
                self.order.as_ptr(),
                self.lengths.as_ptr(),
                self.asked.as_ptr(),
            )
        }
    }

    fn begin_read(&mut self, page: &[u8], out: &mut [u8]) -> Last {
        // SAFETY: as above; the words, the newest message and `out` are written.
        unsafe {
            cache_begin_read(
                page.as_ptr(),
                page.len(),
                self.clusters.as_ptr(),
                self.keys.as_ptr(),
                self.versions.as_ptr(),
                self.kinds.as_ptr(),
                self.words.as_ptr(),
                self.order.as_ptr(),
                self.lengths.as_ptr(),
                self.asked.as_mut_ptr(),
                self.kept.as_mut_ptr(),
                out.as_mut_ptr(),
                out.len(),
            )
        }
    }

    fn receive(&mut self, page: &mut [u8], message: &[u8], out: &mut [u8]) -> Last {
        // SAFETY: as above; all of it may be written but `message`.
        unsafe {
            cache_receive(
                page.as_mut_ptr(),
                page.len(),
                self.clusters.as_mut_ptr(),
                self.keys.as_mut_ptr(),
                self.versions.as_mut_ptr(),
                self.kinds.as_mut_ptr(),
                self.words.as_mut_ptr(),
                self.order.as_mut_ptr(),
                self.lengths.as_mut_ptr(),
                self.asked.as_mut_ptr(),
                self.kept.as_mut_ptr(),
                message.as_ptr(),
                message.len(),
                out.as_mut_ptr(),
                out.len(),
            )
        }
    }

    /// How many entries it says that there are, and how many clusters.
    pub fn count(&self) -> usize {
        self.asked[COUNT] as usize
    }

    pub fn cluster_count(&self) -> usize {
        self.asked[CLUSTER_COUNT] as usize
    }

    /// The cluster of an entry, if it is there.
    pub fn place(&self, i: usize) -> Option<ClusterPath> {
        let k = (self.keys[i] >> 32) as usize;
        let place = *self.clusters.get(k).filter(|_| k < self.cluster_count())?;
        Some(((place >> 32).try_into().ok()?, place as u32))
    }

    /// Which place of the page the text of an entry has, if it is one.
    pub fn text_place(&self, i: usize) -> Option<usize> {
        (self.kinds[i] == 5).then_some(self.words[i] as usize)
    }
}

/// A panel beside the page that it is lent.
#[derive(Clone, Debug, PartialEq)]
pub struct Panel {
    pub page: Vec<u8>,
    pub held: Held,
}

impl Panel {
    pub fn primed(&self) -> bool {
        self.held.asked[PRIMED] == 1
    }

    /// As it stands it begins a read and takes the messages, each by a whole call: the last answer. Only the page is written. One function of its own in the
    /// program, so that a profiler can tell it.
    #[inline(never)]
    pub fn run(&mut self, messages: &Messages, out: &mut [u8; MESSAGE]) -> Last {
        let Panel { page, held } = self;
        let mut held = held.clone();
        let mut last = held.begin_read(page, out);
        for message in messages.iter() {
            last = held.receive(page, message, out);
        }
        last
    }
}

impl CalledPanel for Panel {
    /// It is lent memory full of other bytes.
    fn fresh() -> Panel {
        let mut held = Held::unwritten();
        held.refresh();
        Panel { page: vec![0; PAGE], held }
    }

    fn holding(panel: &Panel) -> Panel {
        let mut panel = panel.clone();
        panel.held.asked[USED..SPARE].fill(0);
        panel.held.kept.fill(0);
        panel
    }

    fn restart(&mut self) {
        self.held.refresh();
    }

    fn use_up_to(&mut self, number: u64) {
        let used = &mut self.held.asked[USED];
        *used = number.max(*used);
    }

    fn valid(&self) -> bool {
        self.held.valid(&self.page)
    }

    fn begin_read(&mut self, out: &mut [u8]) -> Last {
        self.held.begin_read(&self.page, out)
    }

    fn begin_write(
        &mut self,
        path: &Path,
        version: Option<u32>,
        value: &Value,
        out: &mut [u8],
    ) -> Last {
        let Panel { page, held } = self;
        let text: &[u8] = if let Value::Text(text) = value { text } else { &[] };
        // SAFETY: the arrays have the lengths that the library declares, each slice its own; the words, the newest message and `out` are written.
        unsafe {
            cache_begin_write(
                page.as_ptr(),
                page.len(),
                held.clusters.as_ptr(),
                held.keys.as_ptr(),
                held.versions.as_ptr(),
                held.kinds.as_ptr(),
                held.words.as_ptr(),
                held.order.as_ptr(),
                held.lengths.as_ptr(),
                held.asked.as_mut_ptr(),
                held.kept.as_mut_ptr(),
                path.endpoint,
                path.cluster,
                path.attribute,
                version.is_some(),
                version.unwrap_or(0),
                code(value),
                word(value),
                text.as_ptr(),
                text.len(),
                out.as_mut_ptr(),
                out.len(),
            )
        }
    }

    fn resend(&self, out: &mut [u8]) -> Last {
        let Panel { page, held } = self;
        // SAFETY: as above; only `out` is written.
        unsafe {
            cache_resend(
                page.as_ptr(),
                page.len(),
                held.clusters.as_ptr(),
                held.keys.as_ptr(),
                held.versions.as_ptr(),
                held.kinds.as_ptr(),
                held.words.as_ptr(),
                held.order.as_ptr(),
                held.lengths.as_ptr(),
                held.asked.as_ptr(),
                held.kept.as_ptr(),
                out.as_mut_ptr(),
                out.len(),
            )
        }
    }

    fn receive(&mut self, message: &[u8], out: &mut [u8]) -> Last {
        self.held.receive(&mut self.page, message, out)
    }

    fn entries(&self) -> BTreeMap<Path, (u32, Value)> {
        let Panel { page, held } = self;
        let entry = |i: usize| {
            let (endpoint, cluster) = held.place(i).expect("its cluster is there");
            let path = Path { endpoint, cluster, attribute: held.keys[i] as u32 };
            let word = held.words[i];
            let value = match held.kinds[i] {
                0 => Value::Null,
                1 => Value::Bool(word == 1),
                2 => Value::Unsigned(word),
                3 => Value::Signed(word as i64),
                4 => Value::Float(word as u32),
                _ => {
                    let (start, len) = (TEXT_SIZE * word as usize, held.lengths[word as usize]);
                    Value::Text(page[start..start + usize::from(len)].to_vec())
                }
            };
            (path, (held.versions[i] as u32, value))
        };
        (0..held.count()).map(entry).collect()
    }
}
