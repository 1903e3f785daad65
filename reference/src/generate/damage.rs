//! Messages that break the rules of spelling or of their fields (RULES 4.13). What
//! the damage comes to is left to the ends: some of it is harmless.

use super::disguise;
use crate::limits::DEPTH;
use crate::rng::Rng;
use crate::tlv::{write, Body, Element, Tag};

/// A damaged payload.
pub fn payload(rng: &mut Rng, plain: &Element) -> Vec<u8> {
    if rng.chance(60) {
        let mut tree = plain.clone();
        let target = rng.below(containers(&tree));
        hurt(rng, &mut tree, &mut { target });
        return disguise::widened(rng, &tree);
    }
    let mut bytes = disguise::payload(rng, plain);
    hurt_bytes(rng, &mut bytes);
    bytes
}

fn members(body: &Body) -> &[Element] {
    match body {
        Body::Structure(members) | Body::Array(members) | Body::List(members) => members,
        _ => &[],
    }
}

fn members_mut(body: &mut Body) -> Option<&mut Vec<Element>> {
    match body {
        Body::Structure(members) | Body::Array(members) | Body::List(members) => Some(members),
        _ => None,
    }
}

fn is_container(body: &Body) -> bool {
    matches!(body, Body::Structure(_) | Body::Array(_) | Body::List(_))
}

fn containers(element: &Element) -> usize {
    let inside: usize = members(&element.body).iter().map(containers).sum();
    inside + usize::from(is_container(&element.body))
}

/// Finds the container that is `left` containers on, and hurts it.
fn hurt(rng: &mut Rng, element: &mut Element, left: &mut usize) -> bool {
    if !is_container(&element.body) {
        return false;
    }
    if *left == 0 {
        hurt_container(rng, element);
        return true;
    }
    *left -= 1;
    let Some(members) = members_mut(&mut element.body) else { return false };
    members.iter_mut().any(|member| hurt(rng, member, left))
}

fn hurt_container(rng: &mut Rng, element: &mut Element) {
    let other = match (&element.body, rng.below(2)) {
        (Body::List(all), 0) | (Body::Array(all), 1) => Body::Structure(all.clone()),
        (Body::List(all), _) | (Body::Structure(all), 0) => Body::Array(all.clone()),
        (_, _) => Body::List(members(&element.body).to_vec()),
    };
    if rng.chance(10) {
        element.body = other;
        return;
    }
    let Some(members) = members_mut(&mut element.body) else { return };
    if members.is_empty() {
        let tag = *rng.pick(&[0u8, 2, 5, 0xFF]);
        members.push(Element::context(tag, Body::Bool(true)));
        return;
    }
    let at = rng.below(members.len());
    hurt_member(rng, members, at);
}

fn hurt_member(rng: &mut Rng, members: &mut Vec<Element>, at: usize) {
    match rng.below(9) {
        0 => {
            members.remove(at);
        }
        1 => {
            let copy = members[at].clone();
            let to = rng.below(members.len() + 1);
            members.insert(to, copy);
        }
        2 => members[at].body = disguise::any_body(rng, 2),
        3 => {
            members[at].tag = match members[at].tag {
                Tag::Anonymous => Tag::Context(1),
                _ => Tag::Anonymous,
            }
        }
        4 => members[at].tag = Tag::Context(rng.below(6) as u8),
        // A number one past the field's range, or a flag turned over.
        5 => {
            members[at].body = match members[at].body {
                Body::Bool(flag) => Body::Bool(!flag),
                _ => Body::Unsigned(*rng.pick(&[0x100, 0x1_0000, 0x1_0000_0000, 0xFFFF])),
            }
        }
        6 => {
            let index = [Body::Null, Body::Unsigned(0), Body::Unsigned(0x1_0000)];
            members.push(Element::context(5, rng.pick(&index).clone()));
        }
        7 => members.push(Element::context(rng.below(4) as u8, Body::Bool(rng.chance(50)))),
        _ => members[at].body = disguise::nested(rng, DEPTH - 1),
    }
}

fn hurt_bytes(rng: &mut Rng, bytes: &mut Vec<u8>) {
    if bytes.is_empty() {
        return;
    }
    let at = rng.below(bytes.len());
    match rng.below(8) {
        0 => bytes.truncate(at),
        1 => bytes.extend(write(&Element::anonymous(Body::Null))),
        2 => bytes.push(0x18),
        3 => bytes[at] ^= 1 << rng.below(8),
        4 => bytes[at] = rng.draw() as u8,
        // A tagged end.
        5 => {
            bytes.pop();
            bytes.extend([0x38, 0]);
        }
        // A reserved element type, in place of the end.
        6 => {
            bytes.pop();
            bytes.extend([0x39 + rng.below(7) as u8, 0xC8, 0x18]);
        }
        // A length of 2^64 - 1.
        _ => {
            bytes.pop();
            bytes.extend([0x33, 0xC8]);
            bytes.extend([0xFF; 8]);
            bytes.push(0x18);
        }
    }
}
