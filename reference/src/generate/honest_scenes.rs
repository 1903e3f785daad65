//! The two ends talking to each other, in all weathers: messages lost, repeated, late, changes in
//! between, requests abandoned.

use super::maker::Maker;
use super::{panel_scenes, sign_scenes, values};
use crate::limits::{LAST_EXCHANGE, TEXT};
use crate::value::Value;

/// Lifts the panel's numbers to those that hand-made requests have used at the sign, so that its
/// requests are new there.
pub fn catch_up(maker: &mut Maker) {
    let (last, _) = maker.server().exchange();
    if last > maker.cache().used() && last < LAST_EXCHANGE {
        maker.say(&format!("used {last}"));
    }
}

pub fn read(maker: &mut Maker) {
    catch_up(maker);
    maker.say("read");
    weather(maker);
    questions(maker);
}

pub fn write(maker: &mut Maker) {
    catch_up(maker);
    let schema = maker.schema();
    let (path, value) = values::path_and_value(&mut maker.rng, &schema);
    let held = schema.clusters.iter().any(|one| one.place == path.place());
    let present = if held { maker.server().holdings().version(path.place()) } else { 0 };
    let version = match maker.rng.below(4) {
        0 => Some(present),
        1 => Some(present.wrapping_sub(1)),
        _ => None,
    };
    maker.write(&path, version, &value);
    weather(maker);
    maker.say("outcome");
}

/// Steps until nothing is open, or the request is given up.
fn weather(maker: &mut Maker) {
    for _ in 0..40 {
        if maker.cache().awaited().is_none() || !maker.running() {
            return;
        }
        if maker.server().promised() && maker.rng.chance(20) {
            sign_scenes::change_between_parts(maker);
        }
        match maker.rng.below(20) {
            0 => lost_message(maker),
            1 => stale_to_sign(maker),
            2 => stale_to_panel(maker),
            3 | 4 => sign_scenes::any_change(maker),
            5 => sign_scenes::other_subject(maker),
            6 => twice(maker),
            7 => short_buffer(maker),
            8 if maker.rng.chance(30) => {
                abandon(maker);
                return;
            }
            9 => sign_scenes::odd_status(maker),
            10 if maker.rng.chance(40) => refused_begin(maker),
            _ => step(maker),
        }
    }
}

/// One message there and its reply back, which may get lost.
fn step(maker: &mut Maker) {
    let (number, _) = maker.say("forward");
    if number != 0 {
        return;
    }
    if maker.rng.chance(12) {
        maker.note("reply lost");
        return;
    }
    let (_, before) = maker.cache().awaited().unwrap_or((0, 0));
    maker.say("back");
    if let Some((_, turn)) = maker.cache().awaited() {
        if turn > before {
            maker.note("part taken and more asked for");
        }
    } else if before > 1 {
        maker.note("read of several parts ended");
    }
}

fn lost_message(maker: &mut Maker) {
    let (number, _) = maker.say("resend");
    if number == 0 {
        maker.note("message resent");
    }
}

/// Something that the panel made before, handed to the sign late.
pub fn stale_to_sign(maker: &mut Maker) {
    if maker.sent.len() > 1 {
        let message = maker.rng.pick(&maker.sent[..maker.sent.len() - 1]).clone();
        maker.sign(&message);
        maker.note("stale message at the sign");
    }
}

/// A reply made before, handed to the panel late.
pub fn stale_to_panel(maker: &mut Maker) {
    if maker.replies.len() > 1 {
        let reply = maker.rng.pick(&maker.replies[..maker.replies.len() - 1]).clone();
        maker.panel(&reply);
        maker.note("stale reply at the panel");
    }
}

/// The same message twice at one end.
fn twice(maker: &mut Maker) {
    if maker.rng.chance(50) {
        maker.say("forward");
        let (number, _) = maker.say("forward");
        if number == 0 {
            maker.note("message repeated at the sign");
        }
    } else if maker.can_back() {
        maker.say("back");
        let (number, _) = maker.say("back");
        if number == 5 {
            maker.note("reply repeated at the panel");
        }
    }
}

/// Every call is refused for want of room, and changes nothing.
pub fn short_buffer(maker: &mut Maker) {
    let room = *maker.rng.pick(&[0, 1, 1031]);
    maker.say(&format!("buffer {room}"));
    let lines = ["forward", "back", "read", "resend", "outcome"];
    let line = *maker.rng.pick(&lines);
    let possible = match line {
        "forward" => maker.can_forward(),
        "back" => maker.can_back(),
        _ => true,
    };
    if possible {
        maker.say(line);
    }
    if maker.rng.chance(30) {
        sign_scenes::odd_envelope(maker);
    }
    let room = *maker.rng.pick(&[1032, 1032, 1033, 4096]);
    maker.say(&format!("buffer {room}"));
}

/// A begin that is refused leaves what is open open.
fn refused_begin(maker: &mut Maker) {
    let schema = maker.schema();
    let path = values::path(&mut maker.rng, &schema);
    let text = if maker.rng.chance(50) { vec![0xC3] } else { vec![b'x'; TEXT + 1] };
    maker.write(&path, None, &Value::Text(text));
    maker.say("resend");
    maker.note("begin refused while something is open");
}

/// Begins anew while something is open.
fn abandon(maker: &mut Maker) {
    let unknown = maker.cache().unknown();
    panel_scenes::any_begin(maker);
    if maker.cache().unknown() != unknown {
        maker.note("write abandoned");
    } else {
        maker.note("read abandoned");
    }
    maker.say("unknown");
}

/// What the panel holds.
pub fn questions(maker: &mut Maker) {
    let schema = maker.schema();
    for _ in 0..3 {
        let path = values::path(&mut maker.rng, &schema);
        let place = path.place();
        maker.say(&format!("whole {} {}", place.0, place.1));
        if maker.cache().coherent(place).is_some() {
            maker.note("whole cluster");
        }
        maker.say(&format!("entry {}", super::maker::spell_path(&path)));
    }
    maker.say("outcome");
    if maker.rng.chance(30) {
        maker.say("unknown");
    }
}

/// The panel's last numbers: 2^40 - 1 can be used, nothing after it.
pub fn last_numbers(maker: &mut Maker) {
    maker.say(&format!("used {}", LAST_EXCHANGE - 1));
    let (number, _) = maker.say("read");
    if number == 0 {
        maker.note("exchange 2^40 - 1 used by the panel");
        maker.say("forward");
        if maker.can_back() {
            maker.say("back");
        }
    }
    panel_scenes::any_begin(maker);
    refused_begin(maker);
    maker.say("outcome");
    maker.say("unknown");
}
