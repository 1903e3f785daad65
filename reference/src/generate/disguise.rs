//! Other legal spellings of the same message: any width, any field order, extra members that are
//! walked and ignored (RULES 4.10).

use crate::limits::{DEPTH, PAYLOAD};
use crate::rng::Rng;
use crate::tlv::{write, write_with, Body, Element, Tag, Widths};

struct Wide<'a>(&'a mut Rng);

impl Widths for Wide<'_> {
    fn choose(&mut self, least: usize) -> usize {
        if self.0.chance(50) {
            return least;
        }
        let widths: Vec<usize> = [1, 2, 4, 8].into_iter().filter(|one| *one >= least).collect();
        *self.0.pick(&widths)
    }
}

/// The payload in widths, order and company of the generator's choice; in plain spelling where
/// that would pass 1,024 bytes.
pub fn payload(rng: &mut Rng, plain: &Element) -> Vec<u8> {
    if rng.chance(30) {
        return write(plain);
    }
    let element = if rng.chance(70) { mix(rng, plain, DEPTH - 1) } else { plain.clone() };
    let bytes = widened(rng, &element);
    if bytes.len() > PAYLOAD {
        write(plain)
    } else {
        bytes
    }
}

pub fn widened(rng: &mut Rng, element: &Element) -> Vec<u8> {
    let mut bytes = Vec::new();
    write_with(element, &mut Wide(rng), &mut bytes);
    bytes
}

/// Shuffles the fields of structures and lists and puts ignored members among them. `inside` is
/// how many containers may still be opened within this one.
fn mix(rng: &mut Rng, element: &Element, inside: usize) -> Element {
    let below = inside.saturating_sub(1);
    let body = match &element.body {
        Body::Structure(members) => {
            let mut mixed = mix_all(rng, members, below);
            extras(rng, false, inside, &mut mixed);
            Body::Structure(mixed)
        }
        Body::List(members) => {
            let mut mixed = mix_all(rng, members, below);
            extras(rng, true, inside, &mut mixed);
            Body::List(mixed)
        }
        // An array's order is its meaning, and it has no room for strangers.
        Body::Array(members) => {
            Body::Array(members.iter().map(|member| mix(rng, member, below)).collect())
        }
        other => other.clone(),
    };
    Element::new(element.tag.clone(), body)
}

fn mix_all(rng: &mut Rng, members: &[Element], below: usize) -> Vec<Element> {
    let mut mixed: Vec<Element> = members.iter().map(|member| mix(rng, member, below)).collect();
    if rng.chance(50) {
        rng.shuffle(&mut mixed);
    }
    mixed
}

fn extras(rng: &mut Rng, untagged: bool, inside: usize, members: &mut Vec<Element>) {
    while rng.chance(25) {
        let tag = if untagged && rng.chance(40) { Tag::Anonymous } else { unlisted(rng) };
        let extra = Element::new(tag, any_body(rng, inside.min(3)));
        let at = rng.below(members.len() + 1);
        members.insert(at, extra);
    }
}

/// A context tag that no schema lists, or a profile tag of any form.
pub fn unlisted(rng: &mut Rng) -> Tag {
    match rng.below(8) {
        0 | 1 => Tag::Context(*rng.pick(&[6, 0x20, 0x7F, 0xC8, 0xFE])),
        form => {
            let bytes = [0, 0, 2, 4, 2, 4, 6, 8][form];
            // Small numbers too: a profile tag 0 is not the context tag 0.
            let bytes = if rng.chance(50) { vec![0; bytes] } else { rng.bytes(bytes) };
            Tag::Profile(form as u8, bytes)
        }
    }
}

/// Any body at all, with up to `depth` containers one inside the other.
pub fn any_body(rng: &mut Rng, depth: usize) -> Body {
    let kinds = if depth == 0 { 8 } else { 11 };
    match rng.below(kinds) {
        0 => Body::Signed(rng.draw() as i64 >> rng.below(64)),
        1 => Body::Unsigned(rng.draw() >> rng.below(64)),
        2 => Body::Bool(rng.chance(50)),
        3 => Body::Float(rng.draw() as u32),
        4 => Body::Double(rng.draw()),
        5 => {
            let length = rng.below(12);
            Body::Text(rng.bytes(length))
        }
        6 => {
            let length = rng.below(12);
            Body::Bytes(rng.bytes(length))
        }
        7 => Body::Null,
        8 => Body::Structure(some(rng, depth, unlisted)),
        9 => Body::Array(some(rng, depth, |_| Tag::Anonymous)),
        _ => Body::List(some(rng, depth, |rng| {
            if rng.chance(50) {
                Tag::Anonymous
            } else {
                unlisted(rng)
            }
        })),
    }
}

fn some(rng: &mut Rng, depth: usize, tag: fn(&mut Rng) -> Tag) -> Vec<Element> {
    let count = rng.below(3);
    (0..count)
        .map(|_| {
            let tag = tag(rng);
            Element::new(tag, any_body(rng, depth - 1))
        })
        .collect()
}

/// Containers one inside the other, `depth` of them.
pub fn nested(rng: &mut Rng, depth: usize) -> Body {
    let mut body = Body::Null;
    for _ in 0..depth {
        body = match rng.below(3) {
            0 => Body::Structure(vec![Element::context(9, body)]),
            1 => Body::Array(vec![Element::anonymous(body)]),
            _ => Body::List(vec![Element::anonymous(body)]),
        };
    }
    body
}
