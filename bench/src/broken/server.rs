//! Right states of a sign, and every call that takes one.

use reference::envelope::{seal, Envelope, READ_REQUEST, WRITE_REQUEST};
use reference::paths::Path;
use reference::schema::{Attribute, Cluster, Schema};
use reference::spelling;
use reference::status::SUCCESS;
use reference::tlv::{write, Element};
use reference::value::{Kind, Value};

use super::rule::{Call, Lent, Rule};
use super::{server_firsts, server_plan, server_row, server_rust, server_texts, server_values};
use crate::called::{Called, Last};
use crate::library::{Sign, FACTORY};
use crate::messages::{read_all, status};
use crate::setup::{Setup, ATTRIBUTES, CLUSTERS, MESSAGE, OPEN, TEXT_SIZE};

const SUBJECT: u64 = 7;
pub const KINDS: usize = 5;
/// How many texts there are.
pub const RANKS: usize = ATTRIBUTES / KINDS;

// The rows of a kind are its groups: of four in turn one is not nullable, one nullable, one not nullable, and one null. Groups at the start, in the middle and
// at the end are looked at.
pub const NOT_NULLABLE: [usize; 3] = [0, 26, 50];
pub const NULLABLE: [usize; 2] = [1, 49];
pub const NULL: [usize; 3] = [3, 27, 47];
pub const HELD: [usize; 5] = [0, 1, 26, 49, 50];
// Texts never changed, changed, null and never changed, null and changed before.
pub const SHOWN: [usize; 4] = [0, 1, 28, 49];
pub const CHANGED: [usize; 3] = [2, 26, 50];
pub const NULL_FRESH: [usize; 2] = [3, 27];
pub const NULL_CHANGED: [usize; 2] = [7, 47];

/// The limits of numbers: what they begin with and what they hold is neither.
pub const LOW: u64 = 10;
pub const HIGH: u64 = 100_000;
pub const SIGNED_LOW: i64 = -40_000;
pub const SIGNED_HIGH: i64 = 30_000;
pub const FLOAT_LOW: f32 = -10.0;
pub const FLOAT_HIGH: f32 = 20.0;

/// The row of a kind (0 boolean, 1 unsigned, 2 signed, 3 float, 4 text) in a group.
pub fn row(kind: usize, group: usize) -> usize {
    KINDS * group + kind
}

/// 8 attributes to a cluster, but none in the two clusters before the last, and 4 clusters to an endpoint: as many of all as there may be.
fn path(i: usize) -> Path {
    let (cluster, attribute) = if i < 29 * 8 { (i / 8, i % 8) } else { (31, i - 29 * 8) };
    let (endpoint, cluster) = place(cluster);
    Path { endpoint, cluster, attribute: attribute as u32 }
}

fn place(k: usize) -> (u16, u32) {
    (2 * (k as u16 / 4), 0x0500 + k as u32)
}

fn kind(i: usize, text: &str) -> (Kind, Value) {
    let bits = f32::to_bits;
    match i % KINDS {
        0 => (Kind::Bool, Value::Bool(false)),
        1 => (Kind::Unsigned { lowest: LOW, highest: HIGH }, Value::Unsigned(500)),
        2 => (Kind::Signed { lowest: SIGNED_LOW, highest: SIGNED_HIGH }, Value::Signed(-5)),
        3 => {
            let kind = Kind::Float { lowest: bits(FLOAT_LOW), highest: bits(FLOAT_HIGH) };
            (kind, Value::Float(bits(1.5)))
        }
        _ => (Kind::Text, Value::Text(text.as_bytes().to_vec())),
    }
}

fn schema(text: &str) -> Schema {
    let clusters = (0..CLUSTERS).map(|k| Cluster { place: place(k), version: 0x1000 + k as u32 });
    let attributes = (0..ATTRIBUTES).map(|i| {
        let (kind, first) = kind(i, text);
        let nullable = i / KINDS % 2 == 1;
        Attribute { path: path(i), read: Some(1), write: Some(4), nullable, kind, first }
    });
    Schema { subject: SUBJECT, clusters: clusters.collect(), attributes: attributes.collect() }
}

/// What a row holds after its first value.
fn later(i: usize, text: &str) -> Value {
    match i % KINDS {
        0 => Value::Bool(true),
        1 => Value::Unsigned(700),
        2 => Value::Signed(7),
        3 => Value::Float(2.5f32.to_bits()),
        _ => Value::Text(text.as_bytes().to_vec()),
    }
}

/// A sign that its own calls have brought here: numbers that are not those it began with, texts changed and not, nulls, and a read with more promised.
fn served(first: &str, text: &str) -> Sign {
    let setup = Setup::new(schema(first), vec![OPEN]);
    let mut sign = Sign::start(&setup).expect("the plan keeps the rules");
    for i in 0..ATTRIBUTES {
        let group = i / KINDS;
        if i % KINDS != 4 || group % 4 == 2 || group % 8 == 7 {
            assert_eq!(sign.change(&path(i), &later(i, text)), SUCCESS);
        }
        if group % 4 == 3 {
            assert_eq!(sign.change(&path(i), &Value::Null), SUCCESS);
        }
    }
    assert_eq!(sign.receive(SUBJECT, &read_all(), &mut [0; MESSAGE]).number, 0);
    sign
}

/// The same with bytes that are no UTF-8 wherever no text lies: between factory texts, and behind each changed one.
fn with_stray_bytes(mut sign: Sign) -> Sign {
    let mut page = Vec::new();
    for rank in 0..RANKS {
        let text = factory(&sign, rank).to_vec();
        page.push(0xFF);
        sign.schema[FACTORY + rank] = (page.len() as u64) << 32 | text.len() as u64;
        page.extend(text);
        page.push(0x80);
        let len = usize::from(sign.held.texts[rank].saturating_sub(1));
        sign.edits.get_mut()[TEXT_SIZE * rank + len..][..TEXT_SIZE - len].fill(0xC3);
    }
    sign.defaults = page;
    sign
}

/// A factory text.
fn factory(sign: &Sign, rank: usize) -> &[u8] {
    let word = sign.schema[FACTORY + rank];
    &sign.defaults[(word >> 32) as usize..][..word as u32 as usize]
}

fn request(opcode: u8, payload: &Element) -> Vec<u8> {
    seal(Envelope { opcode, exchange: 2, turn: 0 }, &write(payload))
}

fn receive(sign: &mut Sign, message: &[u8], out: &mut [u8]) -> Last {
    sign.receive(SUBJECT, message, out)
}

/// A write that would be stored: a number and a text.
fn write_of_two(sign: &mut Sign, out: &mut [u8]) -> Last {
    let (number, text) = (Value::Unsigned(800), Value::Text(b"WAIT".to_vec()));
    let entries = [(path(row(1, 1)), number), (path(row(4, 0)), text)];
    let entries = entries.map(|(path, value)| spelling::write_entry(None, &path, &value));
    let payload = spelling::write_request(false, entries.to_vec());
    receive(sign, &request(WRITE_REQUEST, &payload), out)
}

fn read(sign: &mut Sign, out: &mut [u8]) -> Last {
    let payload = spelling::read_request(vec![spelling::open_path(None, None, None)], Vec::new());
    receive(sign, &request(READ_REQUEST, &payload), out)
}

/// What else would be refused: 2 comes before 3, 4 and silence (RULES 6.5).
fn nothing_right(sign: &mut Sign, out: &mut [u8]) -> Last {
    sign.receive(SUBJECT + 1, &[], &mut out[..MESSAGE - 1])
}

fn change(sign: &mut Sign, value: Value, kind: usize) -> Last {
    Last { number: sign.change(&path(row(kind, 0)), &value), len: 0 }
}

impl Lent for Sign {
    const CALLS: &'static [Call<Sign>] = &[
        Call { name: "a read", call: read },
        Call { name: "a write", call: write_of_two },
        Call { name: "a success", call: |sign, out| receive(sign, &status(1, SUCCESS), out) },
        Call { name: "another status", call: |sign, out| receive(sign, &status(1, 0x01), out) },
        Call { name: "a message that is none", call: nothing_right },
        Call { name: "a number changed", call: |sign, _| change(sign, Value::Unsigned(900), 1) },
        Call { name: "a text changed", call: |sign, _| change(sign, later(4, "WAIT"), 4) },
    ];
}

/// What the calls answer to a right state: each goes its way to the end.
fn answers_are_right(sign: &Sign) {
    let answers = Sign::CALLS.iter().map(|one| (one.call)(&mut sign.clone(), &mut [0; MESSAGE]));
    let numbers: Vec<u8> = answers.map(|last| last.number).collect();
    assert_eq!(numbers, [0, 0, 0, 1, 3, SUCCESS, SUCCESS], "what a right sign answers");
}

/// How many states of a sign break a rule.
pub fn hold() -> usize {
    let ascii = served("RETURN - RENDRE", "BORROW");
    let accented = served("RETURN - PRÊTÉ", "RENDEZ, DÉJÀ PRÊTÉ");
    let stray = with_stray_bytes(accented.clone());
    let states = [ascii, accented, stray];
    states.iter().for_each(answers_are_right);
    let groups: [(&str, Vec<Rule<Sign>>); 4] = [
        ("The sign's plan", server_plan::rules()),
        ("First values", server_firsts::rules()),
        ("Factory texts, and texts that were changed", server_texts::rules()),
        ("Values", server_values::rules()),
    ];
    let mut count = 0;
    for (name, rules) in groups {
        println!("{name}:");
        for rule in rules {
            count += rule.hold(&states);
            rule.each(&states, server_rust::hold);
        }
    }
    println!("The exchange that is served:");
    count + server_row::rules().iter().map(|rule| rule.hold(&states)).sum::<usize>()
}
