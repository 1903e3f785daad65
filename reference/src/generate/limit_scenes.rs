//! Scenes at the sign's limits: counts, lengths, depths, fields left out or given twice, refused
//! forms of paths.

use super::maker::Maker;
use super::{disguise, requests, values};
use crate::envelope::{seal, Envelope, READ_REQUEST, STATUS_RESPONSE, WRITE_REQUEST};
use crate::limits::{DEPTH, FILTERS, READ_PATHS, WRITES};
use crate::paths::Path;
use crate::spelling;
use crate::tlv::{write, Body, Element, Tag};
use crate::value::Value;

/// Exactly 16 or 17 paths, 32 or 33 filters, 16 or 17 writes, all sound.
pub fn counts(maker: &mut Maker) {
    let (last, _) = maker.server().exchange();
    let path = requests::readable(maker, false).first().copied();
    let path = path.unwrap_or(Path { endpoint: 1, cluster: 6, attribute: 0 });
    let over = maker.rng.below(2);
    let open = spelling::open_path(Some(path.endpoint), Some(path.cluster), Some(path.attribute));
    let (opcode, tree) = match maker.rng.below(4) {
        0 => (READ_REQUEST, spelling::read_request(vec![open; READ_PATHS + over], vec![])),
        1 => {
            let filters = vec![spelling::filter(path.place(), 9); FILTERS + over];
            (READ_REQUEST, spelling::read_request(vec![open], filters))
        }
        2 => {
            // Too many of both: the paths are counted first.
            let filters = vec![spelling::filter(path.place(), 9); FILTERS + 1];
            let paths = vec![spelling::open_path(None, None, None); READ_PATHS + over];
            (READ_REQUEST, spelling::read_request(paths, filters))
        }
        _ => {
            let entry = spelling::write_entry(None, &path, &Value::Null);
            let mut tree = spelling::write_request(false, vec![entry; WRITES + over]);
            if maker.rng.chance(20) {
                requests::set_flag(&mut tree, 1, true);
            }
            (WRITE_REQUEST, tree)
        }
    };
    let message = requests::message(&mut maker.rng, opcode, last + 1, 0, &tree);
    maker.sign(&message);
}

/// Payloads of 1,024 and 1,025 bytes, and messages cut to 7 and 8.
pub fn lengths(maker: &mut Maker) {
    let (exchange, _) = maker.server().exchange();
    let tree = spelling::read_request(vec![spelling::open_path(None, None, None)], vec![]);
    for length in requests::FULL {
        if let Some(payload) = requests::padded(&tree, length) {
            let envelope = Envelope { opcode: READ_REQUEST, exchange: exchange + 1, turn: 0 };
            maker.sign(&seal(envelope, &payload));
        }
    }
    let whole =
        seal(Envelope { opcode: WRITE_REQUEST, exchange: exchange + 2, turn: 0 }, &write(&tree));
    maker.sign(&whole[..7]);
    maker.sign(&whole[..8]);
}

/// Depth 10 passes, 11 gets 80: in a field that is ignored, or in a write's Data.
pub fn depth(maker: &mut Maker) {
    let (last, _) = maker.server().exchange();
    let extra = maker.rng.below(2);
    let message = if maker.rng.chance(50) {
        let mut tree = spelling::read_request(vec![spelling::open_path(None, None, None)], vec![]);
        let body = disguise::nested(&mut maker.rng, DEPTH - 1 + extra);
        requests::fields(&mut tree).push(Element::context(0x30, body));
        seal(Envelope { opcode: READ_REQUEST, exchange: last + 1, turn: 0 }, &write(&tree))
    } else {
        let schema = maker.schema();
        let path = values::path(&mut maker.rng, &schema);
        let mut entry = spelling::write_entry(None, &path, &Value::Null);
        requests::fields(&mut entry).pop();
        // Message, array and entry are three containers.
        let body = disguise::nested(&mut maker.rng, DEPTH - 3 + extra);
        requests::fields(&mut entry).push(Element::context(2, body));
        let tree = spelling::write_request(false, vec![entry]);
        seal(Envelope { opcode: WRITE_REQUEST, exchange: last + 1, turn: 0 }, &write(&tree))
    };
    let (number, reply) = maker.sign(&message);
    let refused = number == 0 && reply[0] == STATUS_RESPONSE;
    match (extra, refused) {
        (0, false) => maker.note("depth 10 passes"),
        (_, true) => maker.note("depth 11 refused"),
        _ => {}
    }
}

/// A field left out or given twice, alone in a sound request.
pub fn missing_or_twice(maker: &mut Maker) {
    let (last, _) = maker.server().exchange();
    let schema = maker.schema();
    let (path, value) = values::path_and_value(&mut maker.rng, &schema);
    let entry = spelling::write_entry(Some(1), &path, &value);
    let (opcode, mut tree) = if maker.rng.chance(50) {
        let paths = vec![spelling::open_path(Some(path.endpoint), None, None)];
        (READ_REQUEST, spelling::read_request(paths, vec![spelling::filter(path.place(), 1)]))
    } else {
        (WRITE_REQUEST, spelling::write_request(false, vec![entry]))
    };
    let twice = maker.rng.chance(50);
    alter(maker, &mut tree, twice);
    let message = requests::message(&mut maker.rng, opcode, last + 1, 0, &tree);
    let (_, reply) = maker.sign(&message);
    let refused = reply.first() == Some(&STATUS_RESPONSE);
    match (twice, refused) {
        (true, true) => maker.note("a listed tag twice"),
        (false, true) => maker.note("a required field left out"),
        (false, false) => maker.note("an optional field left out"),
        _ => {}
    }
}

/// Goes down to some container that holds tagged fields, and doubles or removes one of them.
fn alter(maker: &mut Maker, element: &mut Element, twice: bool) {
    let (Body::Structure(members) | Body::Array(members) | Body::List(members)) = &mut element.body
    else {
        return;
    };
    if members.is_empty() {
        return;
    }
    let at = maker.rng.below(members.len());
    let tagged = members[at].tag != Tag::Anonymous;
    let holds = matches!(members[at].body, Body::Structure(_) | Body::Array(_) | Body::List(_));
    if holds && (!tagged || maker.rng.chance(60)) {
        alter(maker, &mut members[at], twice);
    } else if twice {
        let copy = members[at].clone();
        members.push(copy);
    } else {
        members.remove(at);
    }
}

/// Paths of the forms that get 80 though they are well formed, and the like that does not.
pub fn refused_forms(maker: &mut Maker) {
    let (last, _) = maker.server().exchange();
    let schema = maker.schema();
    let path = values::path(&mut maker.rng, &schema);
    let fields = [
        (0, Body::Bool(true)),
        (0, Body::Bool(false)),
        (1, Body::Unsigned(1)),
        (5, Body::Null),
        (5, Body::Unsigned(65_535)),
        (5, Body::Unsigned(65_536)),
    ];
    let (tag, body) = maker.rng.pick(&fields).clone();
    let extra = Element::context(tag, body);
    let (opcode, tree) = match maker.rng.below(4) {
        0 => (READ_REQUEST, read_with_node_in_filter(&path)),
        1 => {
            let mut entry = spelling::write_entry(None, &path, &Value::Bool(true));
            push_within(&mut requests::fields(&mut entry)[0], extra);
            (WRITE_REQUEST, spelling::write_request(false, vec![entry]))
        }
        _ => {
            let (endpoint, cluster) = (Some(path.endpoint), Some(path.cluster));
            let mut asked = spelling::open_path(endpoint, cluster, Some(path.attribute));
            push_within(&mut asked, extra);
            (READ_REQUEST, spelling::read_request(vec![asked], vec![]))
        }
    };
    let message = requests::message(&mut maker.rng, opcode, last + 1, 0, &tree);
    let (_, reply) = maker.sign(&message);
    let refused = reply.first() == Some(&STATUS_RESPONSE);
    maker.note(if refused { "path form refused" } else { "path form passed" });
}

fn read_with_node_in_filter(path: &Path) -> Element {
    let mut filter = spelling::filter(path.place(), 1);
    let node = Element::context(0, Body::Unsigned(1));
    push_within(&mut requests::fields(&mut filter)[0], node);
    spelling::read_request(vec![spelling::open_path(None, None, None)], vec![filter])
}

/// Adds a member to a path.
fn push_within(path: &mut Element, member: Element) {
    if let Body::List(members) = &mut path.body {
        members.push(member);
    }
}
