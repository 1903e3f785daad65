//! Reads in parts where a filter's verdict changes from one part to the next.

use super::maker::Maker;
use super::{requests, values};
use crate::envelope::READ_REQUEST;
use crate::limits::TEXT;
use crate::paths::Path;
use crate::spelling;
use crate::tlv::Element;
use crate::value::{Kind, Value};

fn asked(path: &Path) -> Element {
    spelling::open_path(Some(path.endpoint), Some(path.cluster), Some(path.attribute))
}

/// A text set to its longest, so that four of its blocks fill a part and a fifth does not fit.
fn long_text(maker: &mut Maker) -> Option<Path> {
    let texts = requests::readable(maker, true);
    if texts.is_empty() {
        return None;
    }
    let path = *maker.rng.pick(&texts);
    let text = values::text_of(&mut maker.rng, TEXT);
    maker.change(&path, &Value::Text(text));
    Some(path)
}

/// Two different values that the attribute at this path may hold, if it has two.
fn two_values(maker: &Maker, path: &Path) -> Option<[Value; 2]> {
    let schema = maker.schema();
    Some(match schema.find(path).ok()?.kind {
        Kind::Bool => [Value::Bool(false), Value::Bool(true)],
        Kind::Text => [Value::Text(vec![b'a'; TEXT]), Value::Text(vec![b'b'; TEXT])],
        _ => return None,
    })
}

/// A change of the attribute that surely is one.
fn certain_change(maker: &mut Maker, path: &Path) -> bool {
    let Some(values) = two_values(maker, path) else { return false };
    let held = maker.server().holdings().value(path).clone();
    let other = values.into_iter().find(|value| *value != held);
    other.is_some_and(|value| maker.change(path, &value).0 == 0)
}

fn next_part(maker: &mut Maker) -> Vec<u8> {
    let (exchange, k) = maker.server().exchange();
    let message = requests::status(&mut maker.rng, exchange, k, 0);
    maker.sign(&message).1
}

/// A cluster that its filter skipped changes between its place and the next block: the next part
/// goes on just after the last block taken, so it now carries the changed attribute.
pub fn skipped_then_changed(maker: &mut Maker) {
    let Some(long) = long_text(maker) else { return };
    let others: Vec<Path> = requests::readable(maker, false)
        .into_iter()
        .filter(|path| path.place() != long.place() && two_values(maker, path).is_some())
        .collect();
    if others.is_empty() {
        return;
    }
    let other = *maker.rng.pick(&others);
    let version = maker.server().holdings().version(other.place());
    let mut paths = vec![asked(&long); 4];
    paths.extend([asked(&other), asked(&long)]);
    let tree = spelling::read_request(paths, vec![spelling::filter(other.place(), version)]);
    let exchange = maker.server().exchange().0 + 1;
    let message = requests::message(&mut maker.rng, READ_REQUEST, exchange, 0, &tree);
    maker.sign(&message);
    if maker.server().promised() && certain_change(maker, &other) {
        next_part(maker);
        maker.note("skipped cluster changed before the next block");
    }
}

/// The other way about: more is promised for a cluster whose filter comes to agree before the
/// next part is made, which then has no block.
pub fn promised_then_skipped(maker: &mut Maker) {
    let Some(long) = long_text(maker) else { return };
    let others: Vec<Path> = requests::readable(maker, true)
        .into_iter()
        .filter(|path| path.place() != long.place())
        .collect();
    if others.is_empty() {
        return;
    }
    let other = *maker.rng.pick(&others);
    let mut paths = vec![asked(&long); 4];
    paths.push(asked(&other));
    let full = Value::Text(vec![b'x'; TEXT]);
    maker.change(&other, &full);
    let version = maker.server().holdings().version(other.place()).wrapping_add(1);
    let tree = spelling::read_request(paths, vec![spelling::filter(other.place(), version)]);
    let exchange = maker.server().exchange().0 + 1;
    let message = requests::message(&mut maker.rng, READ_REQUEST, exchange, 0, &tree);
    maker.sign(&message);
    if maker.server().promised() && certain_change(maker, &other) {
        let part = next_part(maker);
        if part.len() == 8 + 7 {
            maker.note("promised part without a block");
        }
    }
}

/// Two filters for one cluster, of which one agrees: nothing is skipped.
pub fn one_of_two_agrees(maker: &mut Maker) {
    let readable = requests::readable(maker, false);
    if readable.is_empty() {
        return;
    }
    let path = *maker.rng.pick(&readable);
    let version = maker.server().holdings().version(path.place());
    let mut filters = vec![
        spelling::filter(path.place(), version),
        spelling::filter(path.place(), version.wrapping_add(1)),
    ];
    maker.rng.shuffle(&mut filters);
    let tree = spelling::read_request(vec![asked(&path)], filters);
    let exchange = maker.server().exchange().0 + 1;
    let message = requests::message(&mut maker.rng, READ_REQUEST, exchange, 0, &tree);
    maker.sign(&message);
    maker.note("one of two filters agrees");
}

/// A part that comes to exactly 1,024 bytes, or would come to 1,025: a text's length is chosen so
/// that the fifth block just fits or just does not.
pub fn exact_part(maker: &mut Maker) {
    let Some(long) = long_text(maker) else { return };
    let texts: Vec<Path> =
        requests::readable(maker, true).into_iter().filter(|path| *path != long).collect();
    if texts.is_empty() {
        return;
    }
    let other = *maker.rng.pick(&texts);
    let wanted = if maker.rng.chance(50) { 1024 } else { 1025 };
    for length in 0..=TEXT {
        if length_of_part(maker, &long, &other, length) == wanted {
            let text = values::text_of(&mut maker.rng, length);
            maker.change(&other, &Value::Text(text));
            let mut paths = vec![asked(&long); 4];
            paths.push(asked(&other));
            let tree = spelling::read_request(paths, vec![]);
            let exchange = maker.server().exchange().0 + 1;
            let message = requests::message(&mut maker.rng, READ_REQUEST, exchange, 0, &tree);
            maker.sign(&message);
            let more = maker.server().promised();
            maker.note(if more { "part one byte too long" } else { "part of exactly 1,024" });
            return;
        }
    }
}

fn length_of_part(maker: &Maker, long: &Path, other: &Path, length: usize) -> usize {
    let holdings = maker.server().holdings();
    let block = spelling::data_block(long, holdings.version(long.place()), holdings.value(long));
    // A change of the other text raises its cluster's version by one, if it is one.
    let text = Value::Text(vec![b'A'; length]);
    let version = holdings.version(other.place()).wrapping_add(1);
    let mut blocks = vec![block; 4];
    blocks.push(spelling::data_block(other, version, &text));
    crate::tlv::write(&spelling::report(blocks, false)).len()
}
