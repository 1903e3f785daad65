//! Counts, over some hundred seeds, that the generator reaches every situation it is meant to.
//! Where it can, this looks at the lines and their answers themselves and not at what the
//! generator says of them.

use std::collections::BTreeMap;

use reference::generate;
use reference::player::Player;
use reference::script::{parse, Line};
use reference::tlv::{read_payload, Body, Element, Tag};
use reference::value::Value;

const SEEDS: u64 = 1000;

#[derive(Default)]
struct Seen(BTreeMap<String, usize>);

impl Seen {
    fn add(&mut self, what: String) {
        *self.0.entry(what).or_default() += 1;
    }

    fn demand(&self, wanted: &[&str]) {
        let missing: Vec<_> = wanted.iter().filter(|one| !self.0.contains_key(**one)).collect();
        assert!(missing.is_empty(), "never seen: {missing:?}");
    }
}

fn member(members: &[Element], tag: u8) -> Option<&Body> {
    members.iter().find(|one| one.tag == Tag::Context(tag)).map(|one| &one.body)
}

fn inside(body: &Body) -> &[Element] {
    match body {
        Body::Structure(members) | Body::Array(members) | Body::List(members) => members,
        _ => &[],
    }
}

/// The code of an AttributeStatusIB.
fn code_of(status: &[Element]) -> Option<u64> {
    match member(inside(member(status, 1)?), 0)? {
        Body::Unsigned(code) => Some(*code),
        _ => None,
    }
}

/// Opcode and codes of a sign's reply.
fn look_at_reply(seen: &mut Seen, reply: &[u8]) {
    let fields = read_payload(&reply[8..]).expect("a reply of ours is well formed");
    seen.add(format!("reply of {} bytes", reply.len()));
    match reply[0] {
        1 => {
            let code = member(&fields, 0).expect("its status");
            seen.add(format!("whole request refused {code:?}"));
        }
        7 => {
            for status in inside(member(&fields, 0).expect("its list")) {
                let code = code_of(inside(&status.body)).expect("a code");
                seen.add(format!("write {code:02X}"));
            }
        }
        _ => look_at_report(seen, &fields, u16::from_be_bytes([reply[6], reply[7]])),
    }
}

fn look_at_report(seen: &mut Seen, fields: &[Element], turn: u16) {
    seen.add(format!("part {turn}"));
    for block in member(fields, 1).map(inside).unwrap_or(&[]) {
        let block = inside(&block.body);
        if let Some(status) = member(block, 0) {
            seen.add(format!("read {:02X}", code_of(inside(status)).expect("a code")));
        } else if let Some(data) = member(block, 1) {
            let data = inside(data);
            seen.add(format!("version {:?}", member(data, 0).expect("a version")));
            match member(data, 2).expect("its data") {
                Body::Text(text) => seen.add(format!("text of {}", text.len())),
                other => seen.add(format!("data {other:?}")),
            }
        }
    }
}

/// A message handed to an end, before it is played.
fn look_at_message(seen: &mut Seen, end: &str, message: &[u8]) {
    if [0, 7, 8, 1032, 1033].contains(&message.len()) {
        seen.add(format!("{end} message of {}", message.len()));
    }
    let Some(payload) = message.get(8..) else { return };
    let Some(fields) = read_payload(payload) else {
        seen.add(format!("{end} message malformed"));
        return;
    };
    for (form, kind) in controls(payload) {
        seen.add(format!("{end} tag form {form}"));
        seen.add(format!("{end} element type {kind:02X}"));
    }
    let arrays: &[(u8, &str)] = match (end, message[0]) {
        ("sign", 2) => &[(0, "paths"), (4, "filters")],
        ("sign", 6) => &[(2, "writes")],
        _ => &[],
    };
    for (tag, name) in arrays {
        if let Some(Body::Array(members)) = member(&fields, *tag) {
            seen.add(format!("{} {name}", members.len()));
        }
    }
    if end == "sign" && message[0] == 6 && member(&fields, 0) == Some(&Body::Bool(true)) {
        seen.add("write with SuppressResponse".to_string());
    }
}

/// The tag form and element type of every element of well-formed bytes.
fn controls(bytes: &[u8]) -> Vec<(u8, u8)> {
    let mut found = Vec::new();
    let mut at = 0;
    while at < bytes.len() {
        let (form, kind) = (bytes[at] >> 5, bytes[at] & 0x1F);
        found.push((form, kind));
        at += 1 + [0, 1, 2, 4, 2, 4, 6, 8][form as usize];
        let width = 1usize << (kind & 3);
        at += match kind {
            0x00..=0x07 => width,
            0x0A => 4,
            0x0B => 8,
            0x0C..=0x13 => {
                let length = bytes[at..at + width].iter().rev();
                width + length.fold(0, |sum, byte| sum << 8 | usize::from(*byte))
            }
            _ => 0,
        };
    }
    found
}

fn look_at_line(seen: &mut Seen, line: &Line) {
    match line {
        Line::Sign(_, message) => look_at_message(seen, "sign", message),
        Line::Panel(message) => look_at_message(seen, "panel", message),
        Line::Buffer(room) => seen.add(format!("buffer {room}")),
        Line::Change(_, Value::Text(text)) => seen.add(format!("change text of {}", text.len())),
        Line::Change(_, value) => seen.add(format!("change to {value:?}")),
        _ => {}
    }
}

fn observe(seen: &mut Seen, lines: &[String]) {
    let mut player = Player::default();
    for line in lines {
        let word = line.split(' ').next().unwrap_or_default();
        let Ok(Some(parsed)) = parse(line.as_bytes()) else {
            if !line.starts_with('#') {
                seen.add("a line that can't be read".to_string());
            }
            continue;
        };
        look_at_line(seen, &parsed);
        match player.perform(parsed) {
            Ok(Some((number, bytes))) => {
                seen.add(format!("{word} {number}"));
                if word == "outcome" {
                    seen.add(format!("outcome {number} with {} bytes", bytes.len()));
                }
                if number == 0 && (word == "sign" || word == "forward") {
                    look_at_reply(seen, &bytes);
                }
                if number == 0 && word == "entry" {
                    seen.add(format!("entry at {:02X?}", &bytes[..4]));
                    seen.add(format!("entry {:02X?}", &bytes[4..bytes.len().min(9)]));
                }
            }
            Ok(None) => {}
            Err(_) => seen.add("a line with nothing to work on".to_string()),
        }
    }
}

fn all() -> Seen {
    let mut seen = Seen::default();
    for seed in 0..SEEDS {
        let made = generate::script(seed);
        for (note, times) in &made.notes {
            *seen.0.entry(note.to_string()).or_default() += *times as usize;
        }
        observe(&mut seen, &made.lines);
    }
    seen
}

const ANSWERS: &[&str] = &[
    "start 0",
    "start 11",
    "sign 0",
    "sign 1",
    "sign 2",
    "sign 3",
    "sign 4",
    "panel 0",
    "panel 1",
    "panel 3",
    "panel 4",
    "panel 5",
    "panel 6",
    "panel 7",
    "read 0",
    "read 3",
    "read 8",
    "write 0",
    "write 8",
    "write 10",
    "resend 0",
    "resend 3",
    "resend 9",
    "forward 0",
    "forward 1",
    "forward 2",
    "forward 3",
    "back 0",
    "back 1",
    "back 3",
    "back 5",
    "change 0",
    "change 127",
    "change 195",
    "change 134",
    "change 141",
    "change 135",
    "whole 0",
    "whole 1",
    "entry 0",
    "entry 1",
    "unknown 0",
    "unknown 1",
    "outcome 1 with 0 bytes",
    "outcome 1 with 1 bytes",
    "outcome 0 with 0 bytes",
    "outcome 0 with 1 bytes",
    "a line that can't be read",
    "a line with nothing to work on",
];

const WIRE: &[&str] = &[
    "whole request refused Unsigned(128)",
    "whole request refused Unsigned(200)",
    "whole request refused Unsigned(201)",
    "whole request refused Unsigned(137)",
    "read 7F",
    "read C3",
    "read 86",
    "read 8F",
    "read 7E",
    "write 7F",
    "write C3",
    "write 86",
    "write 88",
    "write 7E",
    "write 92",
    "write 8D",
    "write 87",
    "write 00",
    "part 1",
    "part 2",
    "part 3",
    "part 5",
];

const LIMITS: &[&str] = &[
    "sign message of 7",
    "sign message of 8",
    "sign message of 1032",
    "sign message of 1033",
    "panel message of 1032",
    "panel message of 1033",
    "reply of 1032 bytes",
    "16 paths",
    "17 paths",
    "32 filters",
    "33 filters",
    "16 writes",
    "17 writes",
    "0 writes",
    "0 paths",
    "buffer 0",
    "buffer 1031",
    "buffer 1032",
    "buffer 1033",
    "text of 0",
    "text of 200",
    "change text of 200",
    "change text of 201",
    "version Unsigned(4294967295)",
    "version Unsigned(0)",
    "data Signed(-9223372036854775808)",
    "data Signed(9223372036854775807)",
    "data Unsigned(18446744073709551615)",
    "data Float(2147483648)",
    "data Null",
    "change to Float(2143289344)",
    "change to Signed(-9223372036854775808)",
    "entry at [FF, FF, FF, FF]",
    "entry [0A, 01, 00, C0, 7F]",
    "entry [0A, FF, FF, FF, FF]",
    "entry [14]",
    "write with SuppressResponse",
    "sign message malformed",
    "panel message malformed",
];

const NOTES: &[&str] = &[
    "request repeated",
    "first request repeated during a read",
    "part sent again",
    "next part by hand",
    "exchange closed",
    "exchange closed at its first part",
    "change between parts",
    "suppressed write stored",
    "silence repeated",
    "write repeated",
    "damaged request refused",
    "silence to another subject",
    "depth 10 passes",
    "depth 11 refused",
    "depth 10 at the panel",
    "depth 11 at the panel",
    "a listed tag twice",
    "a required field left out",
    "an optional field left out",
    "path form refused",
    "path form passed",
    "event tags in a read",
    "event tag in a report",
    "skipped cluster changed before the next block",
    "promised part without a block",
    "one of two filters agrees",
    "part of exactly 1,024",
    "part one byte too long",
    "NaN at the panel",
    "hand-made report taken to its end",
    "257th entry",
    "33rd cluster",
    "hand-made write response taken",
    "request ended by a status",
    "status to a later part not awaited",
    "reply lost",
    "begin refused while something is open",
    "message resent",
    "stale message at the sign",
    "stale reply at the panel",
    "message repeated at the sign",
    "reply repeated at the panel",
    "read abandoned",
    "write abandoned",
    "part taken and more asked for",
    "read of several parts ended",
    "whole cluster",
    "exchange 2^40 - 1 used by the panel",
    "exchange 2^40 - 1 at the sign",
    "a second start",
    "8 endpoints, 32 clusters, 256 attributes",
    "access table of 17",
    "access privilege 0",
    "access privilege past 4",
];

const BAD_PLANS: &[&str] = &[
    "9 endpoints",
    "33 clusters",
    "257 attributes",
    "clusters not rising",
    "a cluster twice",
    "attributes not rising",
    "an attribute twice",
    "an attribute with no cluster",
    "read privilege 0",
    "read privilege 5",
    "write privilege 0",
    "write privilege 5",
    "unsigned out of order",
    "signed out of order",
    "float out of order",
    "float not finite",
    "text of 201",
    "text not UTF-8",
    "text cut inside a character",
];

#[test]
fn every_situation_is_reached() {
    let seen = all();
    for wanted in [ANSWERS, WIRE, LIMITS, NOTES, BAD_PLANS] {
        seen.demand(wanted);
    }
    for end in ["sign", "panel"] {
        for form in 0..8 {
            seen.demand(&[&format!("{end} tag form {form}")]);
        }
        for kind in 0..=0x18 {
            seen.demand(&[&format!("{end} element type {kind:02X}")]);
        }
    }
}

#[test]
fn a_seed_gives_one_script() {
    for seed in [0, 1, 77, u64::MAX] {
        assert_eq!(generate::script(seed).text(), generate::script(seed).text());
    }
    assert_ne!(generate::script(1).text(), generate::script(2).text());
}

/// The one long script: 65,534 parts that promise more are taken, the next may not promise more.
#[test]
fn a_read_ends_at_the_last_turn() {
    let (answers, stopped) = reference::player::run(generate::turns().as_bytes());
    assert_eq!(stopped, None);
    let answers: Vec<&str> = answers.lines().collect();
    assert_eq!(answers.len(), 2 + 65_535 + 3);
    assert_eq!(answers[65_535], "0 01 00 00 00 00 01 FF FE 15 24 00 00 24 FF 0A 18");
    let last = &answers[65_536..];
    assert_eq!(last, ["6", "0 01 00 00 00 00 01 FF FE 15 24 00 00 24 FF 0A 18", "1", "0"]);
}
