//! Values at, within and past the limits of each kind.

use crate::limits::TEXT;
use crate::paths::Path;
use crate::rng::Rng;
use crate::schema::{Attribute, Schema};
use crate::value::{Kind, Value};

pub const FLOATS: [u32; 14] = [
    0x0000_0000, // 0.0
    0x8000_0000, // -0.0
    0x3F00_0000, // 0.5
    0x42C8_0000, // 100.0
    0x42C8_0001, // the next above it
    0xC2C8_0000, // -100.0
    0x0000_0001, // the least above zero
    0x7F7F_FFFF, // the greatest finite
    0xFF7F_FFFF, // the least finite
    0x7F80_0000, // infinity
    0xFF80_0000, // -infinity
    0x7FC0_0000, // NaN
    0x7F80_0001, // a signalling NaN
    0xFFFF_FFFF, // NaN with every bit
];

/// Valid at the edges of each length of UTF-8.
const GOOD_TEXTS: [&[u8]; 7] = [
    b"",
    b"FREE",
    b"R\xC3\x9CCKGABE",
    b"\x00",
    b"\xC2\x80\xDF\xBF",
    b"\xE0\xA0\x80\xED\x9F\xBF\xEE\x80\x80\xEF\xBF\xBF",
    b"\xF0\x90\x80\x80\xF4\x8F\xBF\xBF",
];

/// Not UTF-8: alone, cut short, too long a form, a surrogate, past the last character.
const BAD_TEXTS: [&[u8]; 8] = [
    b"\x80",
    b"a\xC3",
    b"\xC0\x80",
    b"\xE0\x9F\xBF",
    b"\xED\xA0\x80",
    b"\xF4\x90\x80\x80",
    b"\xFF",
    b"\xF0\x90\x80",
];

const UNSIGNED: [u64; 11] = [
    0,
    1,
    0xFF,
    0x100,
    0xFFFF,
    0x1_0000,
    0xFFFF_FFFF,
    0x1_0000_0000,
    (1 << 63) - 1,
    1 << 63,
    u64::MAX,
];

const SIGNED: [i64; 13] = [
    0,
    -1,
    127,
    128,
    -128,
    -129,
    32767,
    32768,
    -32769,
    i32::MAX as i64 + 1,
    i32::MIN as i64 - 1,
    i64::MAX,
    i64::MIN,
];

/// A text of so many bytes, in one-byte or three-byte characters.
pub fn text_of(rng: &mut Rng, length: usize) -> Vec<u8> {
    if rng.chance(30) {
        let mut text = "\u{6E21}".repeat(length / 3).into_bytes();
        text.resize(length, b'.');
        text
    } else {
        (0..length).map(|_| b'A' + rng.below(26) as u8).collect()
    }
}

pub fn text(rng: &mut Rng) -> Vec<u8> {
    match rng.below(10) {
        0..=3 => rng.pick(&GOOD_TEXTS).to_vec(),
        4 => rng.pick(&BAD_TEXTS).to_vec(),
        5 => text_of(rng, TEXT),
        6 => text_of(rng, TEXT + 1),
        7 => text_of(rng, TEXT - 1),
        _ => {
            let length = rng.between(1, TEXT);
            text_of(rng, length)
        }
    }
}

pub fn any(rng: &mut Rng) -> Value {
    match rng.below(6) {
        0 => Value::Null,
        1 => Value::Bool(rng.chance(50)),
        2 => Value::Unsigned(*rng.pick(&UNSIGNED)),
        3 => Value::Signed(*rng.pick(&SIGNED)),
        4 => Value::Float(*rng.pick(&FLOATS)),
        _ => Value::Text(text(rng)),
    }
}

/// A value of the kind, within its limits, at their ends or just past them.
pub fn of_kind(rng: &mut Rng, kind: &Kind) -> Value {
    match kind {
        Kind::Bool => Value::Bool(rng.chance(50)),
        Kind::Unsigned { lowest, highest } => {
            let ends = [*lowest, *highest, lowest.wrapping_sub(1), highest.wrapping_add(1)];
            let inside = lowest.wrapping_add(highest.wrapping_sub(*lowest) / 2);
            Value::Unsigned(if rng.chance(70) { *rng.pick(&ends) } else { inside })
        }
        Kind::Signed { lowest, highest } => {
            let ends = [*lowest, *highest, lowest.wrapping_sub(1), highest.wrapping_add(1)];
            let inside = lowest / 2 + highest / 2;
            Value::Signed(if rng.chance(70) { *rng.pick(&ends) } else { inside })
        }
        Kind::Float { lowest, highest } => {
            let ends = [*lowest, *highest, lowest.wrapping_add(1), highest.wrapping_add(1)];
            Value::Float(if rng.chance(40) { *rng.pick(&ends) } else { *rng.pick(&FLOATS) })
        }
        Kind::Text => Value::Text(text(rng)),
    }
}

/// What a write or a change may try at an attribute: mostly its kind, sometimes null or another.
pub fn for_attribute(rng: &mut Rng, attribute: &Attribute) -> Value {
    match rng.below(10) {
        0 => Value::Null,
        1 => any(rng),
        _ => of_kind(rng, &attribute.kind),
    }
}

/// A path: mostly one of the schema's, sometimes its neighbour or one that is nowhere.
pub fn path(rng: &mut Rng, schema: &Schema) -> Path {
    let nowhere = Path { endpoint: 900, cluster: 0x99, attribute: 1 };
    let mut path = if schema.attributes.is_empty() {
        schema.clusters.first().map_or(nowhere, |one| Path {
            endpoint: one.place.0,
            cluster: one.place.1,
            attribute: 0,
        })
    } else {
        rng.pick(&schema.attributes).path
    };
    match rng.below(14) {
        0 => path.attribute = path.attribute.wrapping_add(1),
        1 => path.attribute = path.attribute.wrapping_sub(1),
        2 => path.cluster = path.cluster.wrapping_add(1),
        3 => path.endpoint = path.endpoint.wrapping_add(1),
        4 => path.attribute = *rng.pick(&[0xFFF7, 0xFFF8, 0xFFFD, 0xFFFE, u32::MAX]),
        _ => {}
    }
    path
}

/// A path with a value that suits what stands there, if anything does.
pub fn path_and_value(rng: &mut Rng, schema: &Schema) -> (Path, Value) {
    let path = path(rng, schema);
    let value = match schema.find(&path) {
        Ok(attribute) => for_attribute(rng, attribute),
        Err(_) => any(rng),
    };
    (path, value)
}
