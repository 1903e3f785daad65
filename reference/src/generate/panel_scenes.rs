//! Scenes of hand-made messages at the panel.

use super::maker::Maker;
use super::{disguise, requests, values};
use crate::envelope::{REPORT, STATUS_RESPONSE, WRITE_RESPONSE};
use crate::limits::{DEPTH, LAST_EXCHANGE};
use crate::paths::Path;
use crate::rng::Rng;
use crate::spelling;
use crate::tlv::{write, Body, Element, Tag};
use crate::value::Value;

/// Opens a read if none is awaited, and gives the exchange and turn that the panel awaits.
fn awaited(maker: &mut Maker) -> Option<(u64, u16)> {
    if maker.cache().awaited().is_none() || maker.rng.chance(10) {
        maker.say("read");
    }
    maker.cache().awaited()
}

fn block(maker: &mut Maker) -> Element {
    let schema = maker.schema();
    let (path, value) = values::path_and_value(&mut maker.rng, &schema);
    let value = if maker.rng.chance(70) { value } else { values::any(&mut maker.rng) };
    // A part is refused whole for one bad text, so most blocks carry a good one.
    let bad = !value.is_utf8() || value.is_too_long();
    let value = if bad && maker.rng.chance(85) { Value::Float(0x7FC0_0001) } else { value };
    if matches!(value, Value::Float(bits) if f32::from_bits(bits).is_nan()) {
        maker.note("NaN at the panel");
    }
    let version = *maker.rng.pick(&[0, 1, 5, u32::MAX]);
    spelling::data_block(&path, version, &value)
}

/// A report of any blocks for the read that is open.
pub fn report(maker: &mut Maker) {
    let Some((exchange, turn)) = awaited(maker) else { return };
    let count = maker.rng.below(6);
    let blocks: Vec<Element> = (0..count).map(|_| block(maker)).collect();
    let more = maker.rng.chance(40);
    let mut tree = spelling::report(blocks, more);
    vary(maker, &mut tree);
    let message = if maker.rng.chance(25) {
        requests::damaged(&mut maker.rng, REPORT, exchange, turn, &tree)
    } else {
        requests::message(&mut maker.rng, REPORT, exchange, turn, &tree)
    };
    let (number, _) = maker.panel(&message);
    if number == 1 {
        maker.note("hand-made report taken to its end");
    }
    if maker.rng.chance(30) {
        maker.panel(&message);
    }
}

/// Optional fields of a report, sound and unsound.
fn vary(maker: &mut Maker, tree: &mut Element) {
    match maker.rng.below(12) {
        0 => requests::set_flag(tree, 3, false),
        1 => requests::set_flag(tree, 4, false),
        2 => {
            let number = *maker.rng.pick(&[0, u64::from(u32::MAX), 1 << 32]);
            requests::fields(tree).push(Element::context(0, Body::Unsigned(number)));
        }
        3 => {
            let body = disguise::any_body(&mut maker.rng, 3);
            requests::fields(tree).push(Element::context(2, body));
            maker.note("event tag in a report");
        }
        4 => {
            let length = maker.rng.below(3);
            let blocks = vec![Element::anonymous(Body::Structure(vec![])); length];
            requests::fields(tree).push(Element::context(1, Body::Array(blocks)));
        }
        _ => {}
    }
}

/// Each ground for refusal 6 and 7 that one block can bring, alone in a sound report.
pub fn refused_block(maker: &mut Maker) {
    let Some((exchange, turn)) = awaited(maker) else { return };
    let schema = maker.schema();
    let path = values::path(&mut maker.rng, &schema);
    let good = spelling::data_block(&path, 1, &Value::Bool(true));
    let bad = bad_block(&mut maker.rng, &path);
    let mut blocks = vec![good, bad];
    if maker.rng.chance(30) {
        blocks.reverse();
    }
    let tree = spelling::report(blocks, maker.rng.chance(50));
    let message = requests::message(&mut maker.rng, REPORT, exchange, turn, &tree);
    maker.panel(&message);
    maker.say(&format!("entry {}", super::maker::spell_path(&path)));
}

fn bad_block(rng: &mut Rng, path: &Path) -> Element {
    let mut block = spelling::data_block(path, 1, &Value::Bool(false));
    match rng.below(12) {
        0 => return spelling::status_block(path, 0x86),
        1 => block = spelling::data_block(path, 1, &Value::Text(vec![b'x'; 201])),
        2 => block = spelling::data_block(path, 1, &Value::Text(vec![0xC3])),
        // Too long and not UTF-8: the lower number wins.
        3 => block = spelling::data_block(path, 1, &Value::Text(vec![0xFF; 201])),
        4 => remove(data_of(&mut block), 0),
        5 => set(data_of(&mut block), 2, Body::Bytes(vec![1])),
        6 => set(data_of(&mut block), 2, Body::Double(0)),
        7 => set(data_of(&mut block), 2, Body::Array(vec![])),
        8 => remove(path_of(&mut block), *rng.pick(&[2, 3, 4])),
        9 => set(path_of(&mut block), 1, Body::Unsigned(7)),
        10 => set(path_of(&mut block), 5, Body::Null),
        _ => set(path_of(&mut block), 0, Body::Bool(rng.chance(70))),
    }
    block
}

fn remove(members: &mut Vec<Element>, tag: u8) {
    members.retain(|one| one.tag != Tag::Context(tag));
}

fn set(members: &mut Vec<Element>, tag: u8, body: Body) {
    remove(members, tag);
    members.push(Element::context(tag, body));
}

/// The AttributeDataIB within a block, and the path within that.
fn data_of(block: &mut Element) -> &mut Vec<Element> {
    requests::fields(&mut requests::fields(block)[0])
}

fn path_of(block: &mut Element) -> &mut Vec<Element> {
    let data = data_of(block).iter_mut().find(|one| one.tag == Tag::Context(1));
    match data.map(|one| &mut one.body) {
        Some(Body::List(members)) => members,
        _ => unreachable!("a block made by us has a path"),
    }
}

/// Fills the panel to 256 entries or 32 clusters, and then with one more.
pub fn crowd(maker: &mut Maker) {
    maker.say("read");
    let clusters = maker.rng.chance(50);
    for round in 0..20u32 {
        let Some((exchange, turn)) = maker.cache().awaited() else { return };
        let entries = maker.cache().entries().len();
        let places = maker.cache().clusters().len();
        let room = if clusters { 32 - places } else { 256 - entries };
        let over = room == 0 || (room < 4 && maker.rng.chance(30));
        let count = if over { room + 1 } else { room.min(30) };
        let blocks = (0..count as u32)
            .map(|number| {
                let id = 1000 + round * 40 + number;
                let (cluster, attribute) = if clusters { (id, 0) } else { (9, id) };
                let path = Path { endpoint: 500, cluster, attribute };
                spelling::data_block(&path, 3, &Value::Bool(true))
            })
            .collect();
        let payload = write(&spelling::report(blocks, true));
        let envelope = crate::envelope::Envelope { opcode: REPORT, exchange, turn };
        let (number, _) = maker.panel(&crate::envelope::seal(envelope, &payload));
        if over && number == 7 {
            maker.note(if clusters { "33rd cluster" } else { "257th entry" });
            finish_crowd(maker, exchange, turn);
            return;
        }
    }
}

/// The same part is still awaited after a refusal: an entry that is there already may be set.
fn finish_crowd(maker: &mut Maker, exchange: u64, turn: u16) {
    let Some(path) = maker.cache().entries().keys().next().copied() else { return };
    let block = spelling::data_block(&path, 3, &Value::Null);
    let tree = spelling::report(vec![block], false);
    let message = requests::message(&mut maker.rng, REPORT, exchange, turn, &tree);
    maker.panel(&message);
    maker.say("outcome");
    maker.say("read");
}

/// Answers to a write made by hand: one status for its path, or something else.
pub fn write_response(maker: &mut Maker) {
    let schema = maker.schema();
    let (path, value) = values::path_and_value(&mut maker.rng, &schema);
    maker.write(&path, None, &value);
    let Some((exchange, turn)) = maker.cache().awaited() else { return };
    let code = *maker.rng.pick(&[0, 1, 0x87, 0xFF]);
    let mut other = path;
    other.attribute ^= 1;
    let statuses = match maker.rng.below(8) {
        0 => vec![],
        1 => vec![(path, code), (path, code)],
        2 => vec![(other, code)],
        _ => vec![(path, code)],
    };
    let tree = spelling::write_response(&statuses);
    let message = if maker.rng.chance(25) {
        requests::damaged(&mut maker.rng, WRITE_RESPONSE, exchange, turn, &tree)
    } else {
        requests::message(&mut maker.rng, WRITE_RESPONSE, exchange, turn, &tree)
    };
    let (number, _) = maker.panel(&message);
    if number == 1 {
        maker.note("hand-made write response taken");
    }
    maker.say("outcome");
}

/// A Status Response ends a request at turn 1, and is not awaited later on.
pub fn status(maker: &mut Maker) {
    if maker.cache().awaited().is_none() {
        any_begin(maker);
    }
    if maker.rng.chance(30) {
        one_part(maker);
    }
    let Some((exchange, turn)) = maker.cache().awaited() else { return };
    let code = *maker.rng.pick(&[0, 1, 0x80, 0xC8, 0xFF]);
    let tree = spelling::status_response(code);
    let message = if maker.rng.chance(25) {
        requests::damaged(&mut maker.rng, STATUS_RESPONSE, exchange, turn, &tree)
    } else {
        requests::message(&mut maker.rng, STATUS_RESPONSE, exchange, turn, &tree)
    };
    let (number, _) = maker.panel(&message);
    match (number, turn) {
        (1, _) => maker.note("request ended by a status"),
        (5, 2..) => maker.note("status to a later part not awaited"),
        _ => {}
    }
    maker.say("outcome");
    let place = maker.cache().clusters().into_iter().next();
    if let Some((endpoint, cluster)) = place {
        maker.say(&format!("whole {endpoint} {cluster}"));
    }
}

/// Takes a part that promises more, if a read is open.
fn one_part(maker: &mut Maker) {
    let Some((exchange, turn)) = maker.cache().awaited() else { return };
    let schema = maker.schema();
    let path = values::path(&mut maker.rng, &schema);
    let block = spelling::data_block(&path, 5, &Value::Bool(true));
    let tree = spelling::report(vec![block], true);
    let message = requests::message(&mut maker.rng, REPORT, exchange, turn, &tree);
    maker.panel(&message);
    if maker.rng.chance(30) {
        maker.say("read");
    }
}

pub fn any_begin(maker: &mut Maker) {
    if maker.rng.chance(50) {
        maker.say("read");
    } else {
        let schema = maker.schema();
        let (path, value) = values::path_and_value(&mut maker.rng, &schema);
        let version = *maker.rng.pick(&[None, Some(0), Some(u32::MAX)]);
        maker.write(&path, version, &value);
    }
}

/// Messages that the panel does not await: another exchange, turn or opcode.
pub fn not_awaited(maker: &mut Maker) {
    let (exchange, turn) = maker.cache().awaited().unwrap_or((1, 1));
    let (exchange, turn) = match maker.rng.below(4) {
        0 => (exchange + 1, turn),
        1 => (exchange.saturating_sub(1), turn),
        2 => (exchange, turn.wrapping_add(1)),
        _ => (exchange, turn.wrapping_sub(1)),
    };
    let opcode = *maker.rng.pick(&[1, 5, 7, 5, 2, 6]);
    let tree = spelling::report(vec![], false);
    let message =
        requests::message(&mut maker.rng, opcode, exchange.min(LAST_EXCHANGE), turn, &tree);
    maker.panel(&message);
}

/// Payloads of 1,024 and 1,025 bytes, and depths 10 and 11, at the panel.
pub fn limits(maker: &mut Maker) {
    for length in requests::FULL {
        let Some((exchange, turn)) = awaited(maker) else { return };
        let tree = spelling::report(vec![], maker.rng.chance(80));
        if let Some(payload) = requests::padded(&tree, length) {
            let envelope = crate::envelope::Envelope { opcode: REPORT, exchange, turn };
            maker.panel(&crate::envelope::seal(envelope, &payload));
        }
    }
    for extra in [1, 0] {
        let Some((exchange, turn)) = awaited(maker) else { return };
        let mut tree = spelling::report(vec![], true);
        let body = disguise::nested(&mut maker.rng, DEPTH - 1 + extra);
        requests::fields(&mut tree).push(Element::context(0x30, body));
        let envelope = crate::envelope::Envelope { opcode: REPORT, exchange, turn };
        let (number, _) = maker.panel(&crate::envelope::seal(envelope, &write(&tree)));
        match number {
            0 => maker.note("depth 10 at the panel"),
            6 => maker.note("depth 11 at the panel"),
            _ => {}
        }
    }
}
