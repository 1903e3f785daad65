//! How much stack each call of the panel takes.

use reference::envelope::{seal, Envelope, REPORT, STATUS_RESPONSE, WRITE_RESPONSE};
use reference::paths::Path;
use reference::spelling;
use reference::status::{INVALID_ACTION, SUCCESS};
use reference::tlv::{write, Element};
use reference::value::Value;

use crate::called::{Called, CalledPanel};
use crate::library::{Sign, PAYLOAD};
use crate::messages::{whole_read, with_deep_member};
use crate::ordinary_panel::{Checked, Ordinary, Unchecked};
use crate::panel::Panel;
use crate::setup::{ATTRIBUTES, MESSAGE};
use crate::signs::{accented, path, text_of};
use crate::stack::{bytes, line};

/// A call by its last message, or a read begun if there is none; the read and the messages before it lead to it.
struct Call {
    name: &'static str,
    /// As it stands at first.
    panel: Panel,
    messages: Vec<Vec<u8>>,
    room: usize,
    number: u8,
}

/// The parts that fill a panel, and it filled.
struct Filled {
    parts: Vec<Vec<u8>>,
    panel: Panel,
}

impl Filled {
    fn new() -> Filled {
        let sign = Sign::new(&accented(ATTRIBUTES));
        let parts = sign.replies(&whole_read(sign.parts(&mut [0; PAYLOAD])));
        let (mut panel, mut out) = (Panel::fresh(), [0; MESSAGE]);
        panel.begin_read(&mut out);
        for part in parts.iter() {
            panel.receive(part, &mut out);
        }
        Filled { parts: parts.iter().map(<[u8]>::to_vec).collect(), panel }
    }
}

fn reply(opcode: u8, payload: &Element) -> Vec<u8> {
    seal(Envelope { opcode, exchange: 1, turn: 1 }, &write(payload))
}

fn calls(Filled { parts, panel }: &Filled) -> Vec<Call> {
    let call = |name, number, panel: &Panel, messages: &[Vec<u8>]| Call {
        name,
        panel: panel.clone(),
        messages: messages.to_vec(),
        room: MESSAGE,
        number,
    };
    let fresh = &Panel::fresh();
    let (first, mut broken) = (&parts[..1], panel.clone());
    broken.held.words[text_of(ATTRIBUTES)] = u64::MAX;
    let deep = reply(REPORT, &with_deep_member(spelling::report(vec![], true)));
    let cut = parts[0][..parts[0].len() - 1].to_vec();
    let status = reply(STATUS_RESPONSE, &spelling::status_response(INVALID_ACTION));
    vec![
        call("a read begun, nothing is held", 0, fresh, &[]),
        call("a read begun with 32 filters", 0, panel, &[]),
        call("a part of new entries", 0, fresh, first),
        call("a part of entries that are held", 0, panel, first),
        call("the last part", 1, fresh, parts),
        call("a part, containers 10 deep", 0, fresh, &[deep]),
        call("a status that ends the read", 1, fresh, &[status]),
        call("refused with 2", 2, &broken, first),
        Call { room: MESSAGE - 1, ..call("refused with 3", 3, fresh, first) },
        call("refused with 4", 4, fresh, &[parts[0][..7].to_vec()]),
        call("refused with 6", 6, fresh, &[cut]),
    ]
}

/// The call alone, after the read and the messages before it.
fn of_call<P: CalledPanel>(call: &Call) -> usize {
    let (mut panel, mut out) = (P::holding(&call.panel), vec![0; call.room]);
    let Some((last, before)) = call.messages.split_last() else {
        return bytes(&mut || assert_eq!(panel.begin_read(&mut out).number, call.number));
    };
    panel.begin_read(&mut out);
    for message in before {
        panel.receive(message, &mut out);
    }
    bytes(&mut || assert_eq!(panel.receive(last, &mut out).number, call.number))
}

const OTHERS: [&str; 4] =
    ["a write of a text begun", "the newest message again", "a write's answer", "a fresh panel"];

fn of_others<P: CalledPanel>(panel: &Panel) -> [usize; 4] {
    let mut panel = P::holding(panel);
    let (at, mut out) = (path(text_of(ATTRIBUTES)), [0; MESSAGE]);
    let word = Value::Text("PRÊT".as_bytes().to_vec());
    let answer = reply(WRITE_RESPONSE, &spelling::write_response(&[(at, SUCCESS)]));
    [
        bytes(&mut || assert_eq!(panel.begin_write(&at, None, &word, &mut out).number, 0)),
        bytes(&mut || assert_eq!(panel.resend(&mut out).number, 0)),
        bytes(&mut || assert_eq!(panel.receive(&answer, &mut out).number, 1)),
        bytes(&mut || panel.restart()),
    ]
}

/// What the library has no function for.
fn of_questions<const CHECKED: bool>(panel: &Panel) -> [usize; 2] {
    let (panel, at) = (Ordinary::<CHECKED>::holding(panel), path(text_of(ATTRIBUTES)));
    let Path { endpoint, cluster, .. } = at;
    [
        bytes(&mut || assert!(panel.holds(&at))),
        bytes(&mut || assert!(panel.whole((endpoint, cluster)).is_ok_and(|at| at.is_some()))),
    ]
}

pub fn print() {
    let filled = Filled::new();
    println!("\n{:38} {:>9} {:>9} {:>9}", "Stack of the panel, bytes", "ours", "plain", "checked");
    for call in calls(&filled) {
        let plain = (call.number != 2).then(|| of_call::<Unchecked>(&call));
        line(call.name, Some(of_call::<Panel>(&call)), plain, of_call::<Checked>(&call));
    }
    let panel = &filled.panel;
    let (ours, plain) = (of_others::<Panel>(panel), of_others::<Unchecked>(panel));
    let checked = of_others::<Checked>(panel);
    for (k, name) in OTHERS.iter().enumerate() {
        line(name, Some(ours[k]), Some(plain[k]), checked[k]);
    }
    let (plain, checked) = (of_questions::<false>(panel), of_questions::<true>(panel));
    for (k, name) in ["an entry asked for", "a cluster asked for"].iter().enumerate() {
        line(name, None, Some(plain[k]), checked[k]);
    }
    let ours = bytes(&mut || assert!(panel.valid()));
    let checked = Checked::holding(panel);
    let checked = bytes(&mut || assert!(checked.valid()));
    line("the test of refusal 2 alone", Some(ours), None, checked);
}
