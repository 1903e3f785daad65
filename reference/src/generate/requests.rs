//! Requests and statuses for the sign, made by hand: as trees, then sealed with an exchange and a
//! turn.

use super::maker::Maker;
use super::{damage, disguise, values};
use crate::envelope::{seal, Envelope, STATUS_RESPONSE};
use crate::limits::{FILTERS, LAST_EXCHANGE, PAYLOAD, READ_PATHS, WRITES};
use crate::paths::Path;
use crate::rng::Rng;
use crate::schema::Schema;
use crate::spelling;
use crate::tlv::{write, Body, Element};

/// The fields of a payload's tree.
pub fn fields(payload: &mut Element) -> &mut Vec<Element> {
    match &mut payload.body {
        Body::Structure(fields) => fields,
        _ => unreachable!("a payload is a structure"),
    }
}

/// Sets a flag of a payload's tree, present or not.
pub fn set_flag(payload: &mut Element, tag: u8, flag: bool) {
    let field = Element::context(tag, Body::Bool(flag));
    let fields = fields(payload);
    fields.retain(|one| one.tag != field.tag);
    fields.push(field);
}

/// An exchange for a new request: mostly the next one, sometimes the newest again or an old one.
pub fn exchange(maker: &mut Maker) -> u64 {
    let (last, _) = maker.server().exchange();
    let number = match maker.rng.below(20) {
        0 => last,
        1 => last.saturating_sub(1),
        2 => last + 2,
        3 => last + 0x100,
        _ => last + 1,
    };
    number.min(LAST_EXCHANGE)
}

fn open_path(rng: &mut Rng, schema: &Schema) -> Element {
    let path = values::path(rng, schema);
    let (endpoint, cluster) = (Some(path.endpoint), Some(path.cluster));
    let global = Some(*rng.pick(&[0xFFF8, 0xFFFC, 0xFFFD]));
    match rng.below(16) {
        0..=5 => spelling::open_path(endpoint, cluster, Some(path.attribute)),
        6 | 7 => spelling::open_path(None, None, None),
        8 | 9 => spelling::open_path(endpoint, None, None),
        10 => spelling::open_path(None, cluster, None),
        11 => spelling::open_path(endpoint, cluster, None),
        12 => spelling::open_path(None, cluster, Some(path.attribute)),
        13 => spelling::open_path(None, None, global),
        14 => spelling::open_path(endpoint, None, global),
        _ if rng.chance(40) => spelling::open_path(endpoint, cluster, Some(path.attribute)),
        // A cluster left open with an attribute named that may be no global one.
        _ => spelling::open_path(endpoint, None, Some(*rng.pick(&[0, 0xFFF7, 0xFFFE]))),
    }
}

fn count(rng: &mut Rng, usual: usize, limit: usize) -> usize {
    match rng.below(20) {
        0 => limit,
        1 => limit + 1,
        _ => rng.below(usual + 1),
    }
}

fn filter(maker: &mut Maker) -> Element {
    let schema = maker.schema();
    let place = if schema.clusters.is_empty() || maker.rng.chance(10) {
        (3, 0x33)
    } else {
        maker.rng.pick(&schema.clusters).place
    };
    let held = schema.clusters.iter().any(|one| one.place == place);
    let present = if held { maker.server().holdings().version(place) } else { 0 };
    let version = match maker.rng.below(10) {
        0 => present.wrapping_add(1),
        1 => present.wrapping_sub(1),
        _ => present,
    };
    spelling::filter(place, version)
}

/// A read with any paths and filters, a flag, a revision and event tags of any choice.
pub fn read_tree(maker: &mut Maker) -> Element {
    let schema = maker.schema();
    let paths = count(&mut maker.rng, 4, READ_PATHS);
    let paths: Vec<Element> = (0..paths).map(|_| open_path(&mut maker.rng, &schema)).collect();
    let filters = if maker.rng.chance(50) { 0 } else { count(&mut maker.rng, 5, FILTERS) };
    let filters: Vec<Element> = (0..filters).map(|_| filter(maker)).collect();
    let mut tree = spelling::read_request(paths, filters);
    if maker.rng.chance(20) {
        set_flag(&mut tree, 3, true);
    }
    if maker.rng.chance(15) {
        let body = disguise::any_body(&mut maker.rng, 3);
        let tag = *maker.rng.pick(&[1, 2]);
        fields(&mut tree).push(Element::context(tag, body));
        maker.note("event tags in a read");
    }
    revise(maker, &mut tree);
    tree
}

/// The revision may be any number to 255.
fn revise(maker: &mut Maker, tree: &mut Element) {
    if maker.rng.chance(15) {
        let revision = Body::Unsigned(*maker.rng.pick(&[0, 1, 11, 255]));
        let fields = fields(tree);
        let tag = crate::tlv::Tag::Context(0xFF);
        fields.retain(|one| one.tag != tag);
        fields.push(Element::new(tag, revision));
    }
}

fn entry(maker: &mut Maker) -> Element {
    let schema = maker.schema();
    let (path, value) = values::path_and_value(&mut maker.rng, &schema);
    let held = schema.clusters.iter().any(|one| one.place == path.place());
    let present = if held { maker.server().holdings().version(path.place()) } else { 0 };
    let version = match maker.rng.below(6) {
        0 => Some(present.wrapping_add(1)),
        1 | 2 => Some(present),
        _ => None,
    };
    let mut entry = spelling::write_entry(version, &path, &value);
    if maker.rng.chance(8) {
        // Data of no kind that an attribute has.
        let body = disguise::any_body(&mut maker.rng, 3);
        fields(&mut entry).retain(|one| one.tag != crate::tlv::Tag::Context(2));
        fields(&mut entry).push(Element::context(2, body));
    }
    entry
}

pub fn write_tree(maker: &mut Maker) -> Element {
    let entries = match maker.rng.below(16) {
        0 => 0,
        1 => WRITES,
        2 => WRITES + 1,
        _ => maker.rng.between(1, 3),
    };
    let entries: Vec<Element> = (0..entries).map(|_| entry(maker)).collect();
    let suppress = maker.rng.chance(20);
    let mut tree = spelling::write_request(suppress, entries);
    if maker.rng.chance(6) {
        set_flag(&mut tree, 1, true);
    }
    if maker.rng.chance(10) {
        let chunked = maker.rng.chance(50);
        set_flag(&mut tree, 3, chunked);
    }
    revise(maker, &mut tree);
    tree
}

/// Seals a tree as a message, in some legal spelling.
pub fn message(rng: &mut Rng, opcode: u8, exchange: u64, turn: u16, tree: &Element) -> Vec<u8> {
    seal(Envelope { opcode, exchange, turn }, &disguise::payload(rng, tree))
}

/// The same, with something wrong in it.
pub fn damaged(rng: &mut Rng, opcode: u8, exchange: u64, turn: u16, tree: &Element) -> Vec<u8> {
    seal(Envelope { opcode, exchange, turn }, &damage::payload(rng, tree))
}

pub fn status(rng: &mut Rng, exchange: u64, turn: u16, status: u8) -> Vec<u8> {
    message(rng, STATUS_RESPONSE, exchange, turn, &spelling::status_response(status))
}

/// The payload padded to exactly `length` bytes by an unlisted byte string. `None` if it is too
/// long already.
pub fn padded(plain: &Element, length: usize) -> Option<Vec<u8>> {
    let mut tree = plain.clone();
    let bare = write(&tree).len();
    // Control octet, tag and a length of two bytes come before the string's own bytes.
    let string = length.checked_sub(bare + 4)?;
    if string < 0x100 {
        return None;
    }
    fields(&mut tree).push(Element::context(0xC8, Body::Bytes(vec![0xAB; string])));
    Some(write(&tree))
}

pub const FULL: [usize; 2] = [PAYLOAD, PAYLOAD + 1];

/// A path of the schema that some read may report, with its text kind if `text` is asked for.
pub fn readable(maker: &Maker, text: bool) -> Vec<Path> {
    let schema = maker.schema();
    schema
        .attributes
        .iter()
        .filter(|one| one.read == Some(1))
        .filter(|one| !text || one.kind == crate::value::Kind::Text)
        .map(|one| one.path)
        .collect()
}
