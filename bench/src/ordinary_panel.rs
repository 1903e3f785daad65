//! The panel in ordinary Rust, beside the page that it is lent.

use std::collections::{BTreeMap, BTreeSet};

use reference::paths::{ClusterPath, Path};
use reference::value::Value;

use crate::called::{CalledPanel, Last};
use crate::messages::Messages;
use crate::ordinary::{last, value_of};
use crate::panel::{Held, Panel, NO_VERSION, PAGE, PRIMED, SPARE};
use crate::plain::{self, Broken, Stage, Stored};
use crate::setup::{ATTRIBUTES, CLUSTERS, MESSAGE, TEXTS, TEXT_SIZE};

/// `CHECKED`: each call tests what refusal 2 asks.
pub struct Ordinary<const CHECKED: bool> {
    page: Vec<u8>,
    panel: plain::Panel<CHECKED>,
}

pub type Checked = Ordinary<true>;
pub type Unchecked = Ordinary<false>;

/// A value in the form that this panel keeps. One that its kind has not, a kind that is none and a cluster that is not there are a length that no text has.
fn stored(held: &Held, i: usize) -> Stored {
    match (held.kinds[i], held.words[i]) {
        _ if held.place(i).is_none() => Stored::Text(u8::MAX),
        (0, 0) => Stored::Null,
        (1, word @ (0 | 1)) => Stored::Bool(word == 1),
        (2, word) => Stored::Unsigned(word),
        (3, word) => Stored::Signed(word as i64),
        (4, word) => u32::try_from(word).map_or(Stored::Text(u8::MAX), Stored::Float),
        (5, place) if place < TEXTS as u64 => {
            Stored::Text(held.lengths[place as usize].try_into().unwrap_or(u8::MAX))
        }
        _ => Stored::Text(u8::MAX),
    }
}

/// Whether this is the rising order of these words, of which none stands twice.
fn is_order(words: &[u64], order: &[u8]) -> bool {
    let mut rising: Vec<usize> = (0..words.len()).collect();
    rising.sort_by_key(|i| words[*i]);
    let once = words.iter().collect::<BTreeSet<_>>().len() == words.len();
    once && order.iter().map(|i| usize::from(*i)).eq(rising)
}

/// Whether what ours is lent has a form here at all: this panel has no table of clusters, no place for a text but that of its entry, no words that are spare, and an order
/// of its own.
fn has_form(held: &Held) -> bool {
    let (count, clusters) = (held.count(), held.cluster_count());
    if count > ATTRIBUTES || clusters > CLUSTERS {
        return false;
    }
    let texts: Vec<usize> = (0..count).filter_map(|i| held.text_place(i)).collect();
    let places: BTreeSet<&usize> = texts.iter().collect();
    is_order(&held.keys[..count], &held.order[..count])
        && is_order(&held.clusters[..clusters], &held.order[ATTRIBUTES..][..clusters])
        && held.clusters[..clusters].iter().all(|one| one >> 48 == 0)
        && held.versions[..count].iter().all(|one| *one <= NO_VERSION)
        && places.len() == texts.len()
        && held.asked[PRIMED] <= 1
        && held.asked[SPARE..].iter().all(|word| *word == 0)
}

/// What our panel holds, in the form of this one, which counts the clusters that have entries. What has no such form is a count that there is never.
fn held_of(held: &Held) -> plain::Held {
    let filled = held.asked[PRIMED] == 1;
    let mut same = plain::Held { count: held.count(), filled, ..plain::Held::NOTHING };
    if !has_form(held) {
        same.clusters = usize::MAX;
        return same;
    }
    for i in 0..same.count {
        let (endpoint, cluster) = held.place(i).unwrap_or_default();
        let entry = &mut same.entries[i];
        entry.path = (endpoint, cluster, held.keys[i] as u32);
        entry.version = held.versions[i] as u32;
        entry.value = stored(held, i);
        same.order[i] = i as u8;
    }
    let entries = &same.entries;
    let place = |row: &u8| (entries[usize::from(*row)].path.0, entries[usize::from(*row)].path.1);
    same.order[..same.count].sort_by_key(|row| entries[usize::from(*row)].path);
    same.clusters = same.order[..same.count].chunk_by(|a, b| place(a) == place(b)).count();
    same
}

/// Our page with each text at the place of its entry.
fn page_of(Panel { page, held }: &Panel) -> Vec<u8> {
    let mut same = page.clone();
    if page.len() == PAGE {
        for i in 0..held.count().min(ATTRIBUTES) {
            if let Some(place) = held.text_place(i).filter(|place| *place < TEXTS) {
                let text = &page[TEXT_SIZE * place..][..TEXT_SIZE];
                same[TEXT_SIZE * i..][..TEXT_SIZE].copy_from_slice(text);
            }
        }
    }
    same
}

fn path_of(path: &Path) -> (u16, u32, u32) {
    (path.endpoint, path.cluster, path.attribute)
}

/// A value that is held, in the second program's terms.
fn shown(value: plain::Value) -> Value {
    match value {
        plain::Value::Null => Value::Null,
        plain::Value::Bool(flag) => Value::Bool(flag),
        plain::Value::Unsigned(number) => Value::Unsigned(number),
        plain::Value::Signed(number) => Value::Signed(number),
        plain::Value::Float(bits) => Value::Float(bits),
        plain::Value::Text(text) => Value::Text(text.to_vec()),
        plain::Value::Other => unreachable!("no entry has such a value"),
    }
}

impl<const CHECKED: bool> Ordinary<CHECKED> {
    pub fn page(&self) -> &[u8] {
        &self.page
    }

    pub fn entry(&self, path: &Path) -> Result<Option<(u32, Value)>, Broken> {
        let entry = self.panel.entry(&self.page, path_of(path))?;
        Ok(entry.map(|(version, value)| (version, shown(value))))
    }

    /// The same, and nothing is made of it.
    pub fn holds(&self, path: &Path) -> bool {
        self.panel.entry(&self.page, path_of(path)).is_ok_and(|entry| entry.is_some())
    }

    pub fn whole(&self, place: ClusterPath) -> Result<Option<u32>, Broken> {
        self.panel.whole(&self.page, place)
    }

    pub fn stage(&self) -> Result<Stage, Broken> {
        self.panel.stage(&self.page)
    }

    pub fn unknown(&self) -> Result<Option<u64>, Broken> {
        self.panel.unknown(&self.page)
    }

    /// As it stands it begins a read and takes the messages, each by a whole call: the last answer. Only the page is written. One function
    /// of its own in the program, so that a profiler can tell it.
    #[inline(never)]
    pub fn run(&mut self, messages: &Messages, out: &mut [u8; MESSAGE]) -> Last {
        let Ordinary { page, panel } = self;
        let mut panel = panel.clone();
        let mut answer = panel.begin_read(page, out);
        for message in messages.iter() {
            answer = panel.receive(page, message, out);
        }
        last(answer)
    }
}

impl<const CHECKED: bool> CalledPanel for Ordinary<CHECKED> {
    fn fresh() -> Self {
        Ordinary { page: vec![0; PAGE], panel: plain::Panel::FRESH }
    }

    fn holding(panel: &Panel) -> Self {
        Ordinary { page: page_of(panel), panel: plain::Panel::holding(held_of(&panel.held)) }
    }

    fn restart(&mut self) {
        self.panel = plain::Panel::FRESH;
    }

    fn use_up_to(&mut self, number: u64) {
        self.panel.use_up_to(number);
    }

    fn valid(&self) -> bool {
        self.panel.sound(&self.page)
    }

    fn begin_read(&mut self, out: &mut [u8]) -> Last {
        last(self.panel.begin_read(&self.page, out))
    }

    fn begin_write(
        &mut self,
        path: &Path,
        version: Option<u32>,
        value: &Value,
        out: &mut [u8],
    ) -> Last {
        last(self.panel.begin_write(&self.page, path_of(path), version, &value_of(value), out))
    }

    fn resend(&self, out: &mut [u8]) -> Last {
        last(self.panel.resend(&self.page, out))
    }

    fn receive(&mut self, message: &[u8], out: &mut [u8]) -> Last {
        last(self.panel.receive(&mut self.page, message, out))
    }

    fn entries(&self) -> BTreeMap<Path, (u32, Value)> {
        let held = self.panel.held();
        let entry = |row: &u8| {
            let (endpoint, cluster, attribute) = held.entries[usize::from(*row)].path;
            let path = Path { endpoint, cluster, attribute };
            (path, self.entry(&path).expect("it keeps the rules").expect("it is in the order"))
        };
        held.order[..held.count].iter().map(entry).collect()
    }
}
