//! Right states of a panel, and every call that takes one.

use reference::envelope::{seal, Envelope, REPORT, STATUS_RESPONSE, WRITE_RESPONSE};
use reference::paths::Path;
use reference::spelling;
use reference::status::SUCCESS;
use reference::tlv::{write, Element};
use reference::value::Value;

use super::rule::{Call, Lent, Rule};
use super::{cache_columns, cache_request};
use crate::called::{CalledPanel, Last};
use crate::ordinary_panel::Checked;
use crate::panel::{Panel, EXCHANGE, TURN};
use crate::setup::{ATTRIBUTES, MESSAGE, TEXTS, TEXT_SIZE};

/// Null and the five kinds.
const KINDS: usize = 6;
/// How many blocks a part has here.
const BLOCKS: usize = 12;

/// 8 attributes to a cluster, 4 clusters to an endpoint.
fn path(i: usize) -> Path {
    let cluster = i / 8;
    Path {
        endpoint: 2 * (cluster as u16 / 4),
        cluster: 0x0500 + cluster as u32,
        attribute: i as u32 % 8,
    }
}

fn value(i: usize, text: &str) -> Value {
    match i % KINDS {
        0 => Value::Null,
        1 => Value::Bool(i % 4 == 1),
        2 => Value::Unsigned(i as u64 * 300),
        3 => Value::Signed(i as i64 * -300),
        4 => Value::Float((i as f32 / 32.0).to_bits()),
        _ => Value::Text(text.as_bytes().to_vec()),
    }
}

/// A message in the exchange and at the turn that the panel awaits.
fn awaited(panel: &Panel, opcode: u8, payload: &Element) -> Vec<u8> {
    let asked = &panel.held.asked;
    let envelope =
        Envelope { opcode, exchange: asked[EXCHANGE] % (1 << 40), turn: asked[TURN] as u16 };
    seal(envelope, &write(payload))
}

fn take(panel: &mut Panel, opcode: u8, payload: &Element, out: &mut [u8]) -> Last {
    let message = awaited(panel, opcode, payload);
    panel.receive(&message, out)
}

/// A panel that was filled with these by a whole report. They come in no order, the greatest path first: so the cluster at place 0 is the greatest.
fn filled(are: impl Fn(usize) -> bool, text: &str) -> Panel {
    let (mut panel, mut out) = (Panel::fresh(), [0; MESSAGE]);
    assert_eq!(panel.begin_read(&mut out).number, 0);
    let rows = (0..ATTRIBUTES).map(|j| (255 + 37 * j) % ATTRIBUTES).filter(|i| are(*i));
    let block = |i| spelling::data_block(&path(i), 0x1000_0000 + i as u32 / 8, &value(i, text));
    let blocks: Vec<Element> = rows.map(block).collect();
    let parts = blocks.len().div_ceil(BLOCKS);
    for (k, part) in blocks.chunks(BLOCKS).enumerate() {
        let more = k + 1 < parts;
        let last = take(&mut panel, REPORT, &spelling::report(part.to_vec(), more), &mut out);
        assert_eq!(last.number, u8::from(!more), "a part is taken");
    }
    assert_eq!(panel.held.count(), blocks.len(), "each block has its entry");
    panel
}

/// A read that awaits its second part, and before it a write that was abandoned.
fn reading(mut panel: Panel) -> Panel {
    let out = &mut [0; MESSAGE];
    panel.begin_write(&path(2), None, &Value::Unsigned(1), out);
    panel.begin_read(out);
    let block = spelling::data_block(&path(248), 0x2000_0000, &value(248, ""));
    assert_eq!(take(&mut panel, REPORT, &spelling::report(vec![block], true), out).number, 0);
    panel
}

fn writing(mut panel: Panel) -> Panel {
    let last = panel.begin_write(&path(2), Some(5), &Value::Unsigned(1), &mut [0; MESSAGE]);
    assert_eq!(last.number, 0, "a write is begun");
    panel
}

/// A write that a status has ended.
fn refused(panel: Panel) -> Panel {
    let mut panel = writing(panel);
    let payload = spelling::status_response(0x80);
    assert_eq!(take(&mut panel, STATUS_RESPONSE, &payload, &mut [0; MESSAGE]).number, 1);
    panel
}

/// The same with bytes that are no UTF-8 wherever no text lies, and lengths that no text has at places that none has.
fn with_stray_bytes(mut panel: Panel) -> Panel {
    let used: Vec<usize> =
        (0..panel.held.count()).filter_map(|i| panel.held.text_place(i)).collect();
    for place in 0..TEXTS {
        let used = used.contains(&place);
        let len = if used { usize::from(panel.held.lengths[place]) } else { 0 };
        panel.page[TEXT_SIZE * place + len..][..TEXT_SIZE - len].fill(0xC3);
        if !used {
            panel.held.lengths[place] = u16::MAX;
        }
    }
    panel
}

/// A part that would change a text, make an entry null and end the read.
fn part(panel: &mut Panel, out: &mut [u8]) -> Last {
    let block = |i, value| spelling::data_block(&path(i), 0x3000_0000, &value);
    let blocks = vec![block(5, Value::Text(b"WAIT".to_vec())), block(11, Value::Null)];
    take(panel, REPORT, &spelling::report(blocks, false), out)
}

fn response(panel: &mut Panel, out: &mut [u8]) -> Last {
    take(panel, WRITE_RESPONSE, &spelling::write_response(&[(path(2), SUCCESS)]), out)
}

fn write_begun(panel: &mut Panel, out: &mut [u8]) -> Last {
    panel.begin_write(&path(5), Some(7), &Value::Text(b"WAIT".to_vec()), out)
}

impl Lent for Panel {
    const CALLS: &'static [Call<Panel>] = &[
        Call { name: "a read begun", call: |panel, out| panel.begin_read(out) },
        Call { name: "a write begun", call: write_begun },
        Call { name: "the newest message again", call: |panel, out| panel.resend(out) },
        Call { name: "a part", call: part },
        Call { name: "the answer to a write", call: response },
        Call {
            name: "a status",
            call: |panel, out| take(panel, STATUS_RESPONSE, &spelling::status_response(1), out),
        },
        // What else would be refused: 2 comes before 3, 4, 8 and 10 (RULES 6.5, 6.6).
        Call {
            name: "a message that is none",
            call: |panel, out| panel.receive(&[], &mut out[..MESSAGE - 1]),
        },
        Call {
            name: "a write of what is no text",
            call: |panel, out| {
                panel.begin_write(&path(5), None, &Value::Text(vec![0xFF]), &mut out[..7])
            },
        },
        Call { name: "whether a cluster is whole", call: |panel, _| panel.whole(&path(5)) },
        Call { name: "an entry", call: |panel, _| panel.entry(&path(5)) },
        Call { name: "how the newest request stands", call: |panel, _| panel.outcome() },
        Call { name: "the abandoned write", call: |panel, _| panel.unknown() },
    ];
}

/// What the calls answer to a right state.
fn answers_are_right(panel: &Panel, numbers: [u8; 12]) {
    let answers = Panel::CALLS.iter().map(|one| (one.call)(&mut panel.clone(), &mut [0; MESSAGE]));
    assert_eq!(answers.map(|last| last.number).collect::<Vec<_>>(), numbers, "a right panel");
}

/// The checked panel in ordinary Rust too refuses what a change of a column makes, and its questions with it. Of a broken panel no text is shown.
pub fn hold_rust(name: &str, panel: &Panel, right: bool) {
    assert!(right || panel.text_len(&path(5)) == 0, "{name}: a text");
    let mut checked = Checked::holding(panel);
    let out = &mut [0; MESSAGE];
    assert_eq!(checked.valid(), right, "{name}: checked Rust");
    assert_eq!(checked.entry(&path(5)).is_ok(), right, "{name}: checked Rust, an entry");
    assert_eq!(checked.whole(path(5).place()).is_ok(), right, "{name}: checked Rust, a cluster");
    assert_eq!(checked.stage().is_ok(), right, "{name}: checked Rust, the outcome");
    assert_eq!(checked.unknown().is_ok(), right, "{name}: checked Rust, unknown writes");
    assert_eq!(checked.begin_read(out).number != 2, right, "{name}: checked Rust, a read");
}

/// How many states of a panel break a rule.
pub fn hold() -> usize {
    let all = |_: usize| true;
    // Five clusters, the greatest among them.
    let few = |i: usize| i < 32 || i >= 248;
    let (ascii, accented) = ("BORROW - EMPRUNTER", "RETURN - PRÊTÉ");
    let states = [
        reading(filled(all, ascii)),
        writing(filled(all, accented)),
        with_stray_bytes(filled(all, accented)),
        refused(filled(all, accented)),
        with_stray_bytes(reading(filled(few, accented))),
    ];
    let read = [0, 0, 0, 1, 5, 5, 3, 3, 0, 0, 1, 0];
    let written = [0, 0, 0, 5, 1, 1, 3, 3, 0, 0, 1, 1];
    let ended = [0, 0, 9, 5, 5, 5, 3, 3, 0, 0, 0, 1];
    for (state, numbers) in states.iter().zip([read, written, ended, ended, read]) {
        answers_are_right(state, numbers);
        assert_ne!(state.text_len(&path(5)), 0, "a right panel, a text");
    }
    let [.., small] = &states;
    println!("What the panel holds:");
    let mut count = 0;
    for rule in cache_columns::rules() {
        count += rule.hold(&states);
        rule.each(&states, hold_rust);
    }
    for rule in cache_columns::of_fewer() {
        count += rule.hold(std::slice::from_ref(small));
        rule.each(std::slice::from_ref(small), hold_rust);
    }
    println!("The panel's newest request:");
    let rules: Vec<Rule<Panel>> = cache_request::rules();
    count + rules.iter().map(|rule| rule.hold(&states)).sum::<usize>()
}
