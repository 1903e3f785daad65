//! Messages one after the other, as both programs are given them.

use reference::envelope::{seal, Envelope, READ_REQUEST, STATUS_RESPONSE, WRITE_REQUEST};
use reference::limits::DEPTH;
use reference::paths::Path;
use reference::spelling;
use reference::status::SUCCESS;
use reference::tlv::{write, Body, Element};
use reference::value::Value;

use crate::signs::{path, ATTRIBUTES_EACH, FIRST_VERSION};

#[derive(Clone, Default)]
pub struct Messages {
    pub bytes: Vec<u8>,
    /// Where each message ends.
    pub ends: Vec<usize>,
}

impl Messages {
    pub fn push(&mut self, message: &[u8]) {
        self.bytes.extend_from_slice(message);
        self.ends.push(self.bytes.len());
    }

    pub fn of(messages: &[Vec<u8>]) -> Messages {
        let mut all = Messages::default();
        for message in messages {
            all.push(message);
        }
        all
    }

    pub fn first(&self, count: usize) -> Messages {
        let ends = self.ends[..count].to_vec();
        let bytes = self.bytes[..ends.last().copied().unwrap_or(0)].to_vec();
        Messages { bytes, ends }
    }

    pub fn iter(&self) -> impl Iterator<Item = &[u8]> {
        let starts = std::iter::once(0).chain(self.ends.iter().copied());
        starts.zip(&self.ends).map(|(start, end)| &self.bytes[start..*end])
    }
}

fn request(opcode: u8, exchange: u64, payload: &Element) -> Vec<u8> {
    seal(Envelope { opcode, exchange, turn: 0 }, &write(payload))
}

/// A read of everything, in exchange 1.
pub fn read_all() -> Vec<u8> {
    let paths = vec![spelling::open_path(None, None, None)];
    request(READ_REQUEST, 1, &spelling::read_request(paths, Vec::new()))
}

/// So many reads of everything by a panel that holds it all, each an exchange: a filter for each cluster, at the version that it began with.
pub fn filtered_reads(count: u64, attributes: usize) -> Messages {
    let mut messages = Messages::default();
    for exchange in 1..=count {
        let paths = vec![spelling::open_path(None, None, None)];
        let filters = (0..attributes / ATTRIBUTES_EACH)
            .map(|k| spelling::filter(path(k * ATTRIBUTES_EACH).place(), FIRST_VERSION + k as u32));
        let payload = spelling::read_request(paths, filters.collect());
        messages.push(&request(READ_REQUEST, exchange, &payload));
    }
    messages
}

/// A status for the part of this turn: success asks for the one after it, any other closes the exchange.
pub fn status(turn: u16, status: u8) -> Vec<u8> {
    let envelope = Envelope { opcode: STATUS_RESPONSE, exchange: 1, turn };
    seal(envelope, &write(&spelling::status_response(status)))
}

/// A whole read of so many parts.
pub fn whole_read(parts: usize) -> Messages {
    let mut messages = Messages::default();
    messages.push(&read_all());
    for turn in 1..parts {
        messages.push(&status(turn as u16, SUCCESS));
    }
    messages
}

/// So many reads of one attribute, each an exchange.
pub fn single_reads(count: u64, path: &Path) -> Messages {
    let mut messages = Messages::default();
    let open = |id| spelling::open_path(Some(path.endpoint), Some(path.cluster), Some(id));
    for exchange in 1..=count {
        let payload = spelling::read_request(vec![open(path.attribute)], Vec::new());
        messages.push(&request(READ_REQUEST, exchange, &payload));
    }
    messages
}

/// A message with an ignored member in which containers stand as deep as they may.
pub fn with_deep_member(mut payload: Element) -> Element {
    let mut deep = Body::Null;
    for _ in 1..DEPTH {
        deep = Body::Structure(vec![Element::context(9, deep)]);
    }
    if let Body::Structure(fields) = &mut payload.body {
        fields.push(Element::context(0xC8, deep));
    }
    payload
}

/// A read of everything with such a member.
pub fn deep_read() -> Vec<u8> {
    let paths = vec![spelling::open_path(None, None, None)];
    request(READ_REQUEST, 1, &with_deep_member(spelling::read_request(paths, Vec::new())))
}

/// One write of these values.
pub fn write_all(entries: &[(Path, Value)]) -> Vec<u8> {
    let entries = entries.iter().map(|(path, value)| spelling::write_entry(None, path, value));
    request(WRITE_REQUEST, 1, &spelling::write_request(false, entries.collect()))
}

/// So many writes of one attribute, each an exchange; the two values take turns, so that each is a change.
pub fn single_writes(count: u64, path: &Path, values: &[Value; 2]) -> Messages {
    let mut messages = Messages::default();
    for exchange in 1..=count {
        let entry = spelling::write_entry(None, path, &values[exchange as usize % 2]);
        let payload = spelling::write_request(false, vec![entry]);
        messages.push(&request(WRITE_REQUEST, exchange, &payload));
    }
    messages
}
