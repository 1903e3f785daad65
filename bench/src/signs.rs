//! The signs that are measured.

use reference::paths::Path;
use reference::schema::{Attribute, Cluster, Schema};
use reference::value::{Kind, Value};

use crate::setup::{Setup, ATTRIBUTES, OPEN, TEXT_SIZE};

pub const SUBJECT: u64 = 1;
pub const ATTRIBUTES_EACH: usize = 8;
pub const FIRST_VERSION: u32 = 0x1000_0000;

/// Where the attributes stand: 8 to a cluster, 4 clusters to an endpoint.
pub fn path(i: usize) -> Path {
    let cluster = i / ATTRIBUTES_EACH;
    Path {
        endpoint: cluster as u16 / 4,
        cluster: 0x0500 + cluster as u32,
        attribute: (i % ATTRIBUTES_EACH) as u32,
    }
}

/// A sign of whole clusters: readable with View, writable with Operate, never null.
fn sign(kinds: Vec<(Kind, Value)>) -> Setup {
    assert_eq!(kinds.len() % ATTRIBUTES_EACH, 0, "whole clusters");
    let clusters = (0..kinds.len() / ATTRIBUTES_EACH).map(|k| Cluster {
        place: path(k * ATTRIBUTES_EACH).place(),
        version: FIRST_VERSION + k as u32,
    });
    let attributes = kinds.iter().enumerate().map(|(i, (kind, first))| Attribute {
        path: path(i),
        read: Some(1),
        write: Some(2),
        nullable: false,
        kind: kind.clone(),
        first: first.clone(),
    });
    let schema =
        Schema { subject: SUBJECT, clusters: clusters.collect(), attributes: attributes.collect() };
    Setup::new(schema, vec![OPEN])
}

fn boolean(first: bool) -> (Kind, Value) {
    (Kind::Bool, Value::Bool(first))
}

fn unsigned(first: u64) -> (Kind, Value) {
    (Kind::Unsigned { lowest: 0, highest: 100_000 }, Value::Unsigned(first))
}

fn signed(first: i64) -> (Kind, Value) {
    (Kind::Signed { lowest: -40_000, highest: 40_000 }, Value::Signed(first))
}

fn float(first: f32) -> (Kind, Value) {
    let kind = Kind::Float { lowest: (-10f32).to_bits(), highest: 10f32.to_bits() };
    (kind, Value::Float(first.to_bits()))
}

fn text(first: Vec<u8>) -> (Kind, Value) {
    (Kind::Text, Value::Text(first))
}

/// Booleans, unsigned and signed numbers, floats and this text in turn.
fn in_turn(count: usize, word: &str) -> Setup {
    let kind = |i: usize| match i % 5 {
        0 => boolean(i % 2 == 0),
        1 => unsigned(i as u64 * 300),
        2 => signed(i as i64 * 200 - 25_000),
        3 => float(i as f32 / 32.0),
        _ => text(word.as_bytes().to_vec()),
    };
    sign((0..count).map(kind).collect())
}

/// Mixed kinds with short ASCII texts.
pub fn mixed(count: usize) -> Setup {
    in_turn(count, "RETURN - RENDRE")
}

/// Mixed kinds with short texts that are not ASCII.
pub fn accented(count: usize) -> Setup {
    in_turn(count, "RETURN - PRÊTÉ")
}

/// Booleans and unsigned numbers in turn.
pub fn numbers(count: usize) -> Setup {
    let kind = |i: usize| match i % 2 {
        0 => boolean(i % 4 == 0),
        _ => unsigned(i as u64 * 300),
    };
    sign((0..count).map(kind).collect())
}

/// An unsigned number and a text in the middle of mixed kinds.
pub fn number_of(count: usize) -> usize {
    count / 10 * 5 + 1
}

pub fn text_of(count: usize) -> usize {
    count / 10 * 5 + 4
}

/// Texts of 200 bytes, each with this at a place of its own; a byte that is left over is ASCII.
pub fn texts(inner: &str) -> Setup {
    let kind = |i: usize| {
        let mut bytes = vec![b'x'; i * 37 % (TEXT_SIZE - inner.len() + 1)];
        bytes.extend_from_slice(inner.as_bytes());
        bytes.resize(TEXT_SIZE, b'x');
        text(bytes)
    };
    sign((0..ATTRIBUTES).map(kind).collect())
}

/// These characters in no order, until 200 bytes are full.
pub fn scripts(characters: [&str; 4]) -> Setup {
    let mut seed: u32 = 1;
    let mut kind = |_| {
        let mut full = String::new();
        loop {
            seed = seed.wrapping_mul(1_664_525).wrapping_add(1_013_904_223);
            let next = characters[(seed >> 30) as usize];
            if TEXT_SIZE < full.len() + next.len() {
                break;
            }
            full.push_str(next);
        }
        let mut bytes = full.into_bytes();
        bytes.resize(TEXT_SIZE, b'x');
        text(bytes)
    };
    sign((0..ATTRIBUTES).map(&mut kind).collect())
}
