//! Scenes of hand-made messages at the sign.

use super::maker::Maker;
use super::{requests, values};
use crate::envelope::{seal, Envelope, READ_REQUEST, STATUS_RESPONSE, WRITE_REQUEST};
use crate::spelling;
use crate::status::SUCCESS;
use crate::value::judge;

/// Any read, and then its parts.
pub fn read(maker: &mut Maker) {
    let exchange = requests::exchange(maker);
    let tree = requests::read_tree(maker);
    let message = requests::message(&mut maker.rng, READ_REQUEST, exchange, 0, &tree);
    let (number, _) = maker.sign(&message);
    if number == 0 && maker.rng.chance(30) {
        maker.sign(&message);
        maker.note("request repeated");
    }
    fetch(maker, &message);
}

/// Fetches the promised parts with statuses, in all weathers.
fn fetch(maker: &mut Maker, request: &[u8]) {
    for _ in 0..12 {
        if !maker.server().promised() {
            break;
        }
        let (exchange, k) = maker.server().exchange();
        match maker.rng.below(20) {
            0..=4 => change_between_parts(maker),
            5 | 9 => close(maker, request),
            6 => {
                maker.sign(request);
                maker.note("first request repeated during a read");
            }
            7 if k > 1 => {
                let again = requests::status(&mut maker.rng, exchange, k - 1, 0);
                let (number, _) = maker.sign(&again);
                if number == 0 {
                    maker.note("part sent again");
                }
            }
            8 => odd_status(maker),
            _ => {
                let next = requests::status(&mut maker.rng, exchange, k, 0);
                maker.sign(&next);
                maker.note("next part by hand");
            }
        }
    }
    let (exchange, k) = maker.server().exchange();
    if k > 1 && maker.rng.chance(50) {
        let again = requests::status(&mut maker.rng, exchange, k - 1, 0);
        maker.sign(&again);
        let beyond = requests::status(&mut maker.rng, exchange, k, 0);
        maker.sign(&beyond);
    }
}

/// Another status at turn k closes the exchange: then all is silence, the request again too.
fn close(maker: &mut Maker, request: &[u8]) {
    let (exchange, k) = maker.server().exchange();
    let code = *maker.rng.pick(&[1, 0x80, 0xFF]);
    let message = requests::status(&mut maker.rng, exchange, k, code);
    maker.sign(&message);
    if !maker.server().promised() {
        maker.note("exchange closed");
        if k == 1 {
            maker.note("exchange closed at its first part");
        }
    }
    maker.sign(request);
    for turn in [k.saturating_sub(1), k] {
        let message = requests::status(&mut maker.rng, exchange, turn, 0);
        maker.sign(&message);
    }
}

/// Statuses that change nothing: other turns, other exchanges, malformed ones.
pub fn odd_status(maker: &mut Maker) {
    let (last, k) = maker.server().exchange();
    let exchange = *maker.rng.pick(&[last, last, last + 1, last.saturating_sub(1)]);
    let turns = [0, 1, k.saturating_sub(1), k, k.saturating_add(1), u16::MAX];
    let turn = *maker.rng.pick(&turns);
    let code = *maker.rng.pick(&[0, 0, 1, 0x80]);
    let tree = spelling::status_response(code);
    let message = if maker.rng.chance(50) {
        requests::damaged(&mut maker.rng, STATUS_RESPONSE, exchange, turn, &tree)
    } else {
        requests::message(&mut maker.rng, STATUS_RESPONSE, exchange, turn, &tree)
    };
    maker.sign(&message);
}

pub fn change_between_parts(maker: &mut Maker) {
    if change_between(maker) {
        maker.note("change between parts");
    }
}

/// A change that surely is one, if a few tries find it; any try at all otherwise.
fn change_between(maker: &mut Maker) -> bool {
    let schema = maker.schema();
    for _ in 0..8 {
        let (path, value) = values::path_and_value(&mut maker.rng, &schema);
        let Ok(attribute) = schema.find(&path) else { continue };
        let allowed = judge(&attribute.kind, attribute.nullable, &value) == SUCCESS;
        if allowed && *maker.server().holdings().value(&path) != value {
            maker.change(&path, &value);
            return true;
        }
    }
    any_change(maker);
    false
}

pub fn any_change(maker: &mut Maker) {
    let schema = maker.schema();
    let (path, value) = values::path_and_value(&mut maker.rng, &schema);
    maker.change(&path, &value);
}

/// Any write, sometimes sent twice, sometimes with something between.
pub fn write_action(maker: &mut Maker) {
    let exchange = requests::exchange(maker);
    let tree = requests::write_tree(maker);
    let message = requests::message(&mut maker.rng, WRITE_REQUEST, exchange, 0, &tree);
    let before = maker.server().holdings().clone();
    let (number, _) = maker.sign(&message);
    let stored = *maker.server().holdings() != before;
    if stored && number == 1 {
        maker.note("suppressed write stored");
    }
    let again = if stored && number == 1 { 80 } else { 40 };
    if maker.rng.chance(again) {
        if maker.rng.chance(60) {
            change_between(maker);
        }
        maker.sign(&message);
        maker.note(if number == 1 { "silence repeated" } else { "write repeated" });
        // A repeat is known by its opcode 2 or 6, whichever the first was.
        let other = seal(Envelope { opcode: READ_REQUEST, exchange, turn: 0 }, &message[8..]);
        if maker.rng.chance(30) {
            maker.sign(&other);
        }
    }
}

/// A request with something wrong in it; then the same once more.
pub fn damaged(maker: &mut Maker) {
    let exchange = requests::exchange(maker);
    let (opcode, tree) = if maker.rng.chance(50) {
        (READ_REQUEST, requests::read_tree(maker))
    } else {
        (WRITE_REQUEST, requests::write_tree(maker))
    };
    let message = requests::damaged(&mut maker.rng, opcode, exchange, 0, &tree);
    let (number, reply) = maker.sign(&message);
    if number == 0 && reply[0] == STATUS_RESPONSE {
        maker.note("damaged request refused");
        if maker.rng.chance(30) {
            maker.sign(&message);
        }
    }
}

/// Envelopes that are refused or get silence, and bytes of no sense.
pub fn odd_envelope(maker: &mut Maker) {
    let (last, _) = maker.server().exchange();
    let tree = requests::read_tree(maker);
    let mut message = requests::message(&mut maker.rng, READ_REQUEST, last + 1, 0, &tree);
    match maker.rng.below(6) {
        0 => message[0] |= (maker.rng.between(1, 15) as u8) << 4,
        1 => message[0] = *maker.rng.pick(&[0, 3, 4, 5, 7, 8, 9, 10, 15]),
        2 => message[7] = 1,
        3 => message.truncate(8),
        4 => message.truncate(7),
        _ => {
            let length = maker.rng.below(40);
            message = maker.rng.bytes(length);
        }
    }
    if maker.rng.chance(70) {
        maker.sign(&message);
    } else {
        maker.panel(&message);
    }
}

/// From a subject that is not served: silence, but 2 to 4 come first.
pub fn other_subject(maker: &mut Maker) {
    let other = maker.subject ^ 1;
    let (last, k) = maker.server().exchange();
    let message = match maker.rng.below(3) {
        0 => {
            let tree = requests::write_tree(maker);
            requests::message(&mut maker.rng, WRITE_REQUEST, last + 1, 0, &tree)
        }
        1 => requests::status(&mut maker.rng, last, k, 0),
        _ => {
            let length = maker.rng.between(0, 12);
            maker.rng.bytes(length)
        }
    };
    let before = maker.server().clone();
    let (number, _) = maker.sign_as(other, &message);
    if number == 1 && before == *maker.server() {
        maker.note("silence to another subject");
    }
}
