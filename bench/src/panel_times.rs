//! The panel beside ordinary Rust on the same reports: the answers and what is held are held to be the same, then all are timed.

use std::hint::black_box;

use crate::beside::{self, Line};
use crate::called::{Called, CalledPanel};
use crate::library::{Sign, PAYLOAD};
use crate::messages::{filtered_reads, whole_read, Messages};
use crate::ordinary_panel::{Checked, Unchecked};
use crate::panel::{Held, Panel};
use crate::setup::{Setup, ATTRIBUTES, MESSAGE};
use crate::signs::{accented, mixed, numbers, scripts, texts};

const SAMPLES: usize = 401;
const FEWER_SAMPLES: usize = 101;

/// A read begun and the messages that are taken then, by panels that hold the same.
struct Case {
    name: String,
    messages: Messages,
    /// As they begin.
    ours: Panel,
    unchecked: Unchecked,
    checked: Checked,
    /// What ours holds at each of its calls.
    states: Vec<Held>,
    /// Ours at the end.
    end: Panel,
}

impl Case {
    fn new(name: String, panel: &Panel, messages: Messages) -> Case {
        let ours = Panel::holding(panel);
        let (mut end, mut states) = (ours.clone(), vec![ours.held.clone()]);
        let (mut b, mut c) = (Unchecked::holding(panel), Checked::holding(panel));
        let parts = messages.iter().map(Some);
        for (k, part) in std::iter::once(None).chain(parts).enumerate() {
            let answers = (taken(&mut end, part), taken(&mut b, part), taken(&mut c, part));
            assert_eq!(answers.0, answers.1, "{name}: message {k}");
            assert_eq!(answers.0, answers.2, "{name}: message {k}, checked");
            assert!(answers.0 .0 <= 1 && end.valid(), "{name}: message {k} is taken");
            states.push(end.held.clone());
        }
        states.pop();
        let entries = end.entries();
        let same = entries == b.entries() && entries == c.entries();
        assert!(same, "{name}: the entries afterwards");
        let (unchecked, checked) = (Unchecked::holding(panel), Checked::holding(panel));
        Case { name, messages, ours, unchecked, checked, states, end }
    }

    /// The report of a sign fills a fresh panel.
    fn fill(what: &str, setup: &Setup) -> Case {
        let sign = Sign::new(setup);
        let read = whole_read(sign.parts(&mut [0; PAYLOAD]));
        let name = format!("{} {what}, {} parts", setup.schema.attributes.len(), read.ends.len());
        let case = Case::new(name, &Panel::fresh(), sign.replies(&read));
        assert!(case.end.primed(), "the last part fills it");
        case
    }

    /// A panel that was filled reads again, and nothing has changed.
    fn again(filled: &Case) -> Case {
        let request = filtered_reads(1, ATTRIBUTES);
        let replies = Sign::new(&mixed(ATTRIBUTES)).replies(&request);
        let (_, begun) = taken(&mut Panel::holding(&filled.end), None);
        assert_eq!(begun, request.bytes, "a filter for each cluster");
        Case::new("again, 32 filters, no change".into(), &filled.end, replies)
    }

    fn line(&mut self) -> Line<'_> {
        let Case { name, messages, ours, unchecked, checked, states, end } = self;
        let (messages, states, page) = (&*messages, &*states, &end.page[..]);
        let (mut a, mut b, mut c) = ([0; MESSAGE], [0; MESSAGE], [0; MESSAGE]);
        Line {
            name,
            calls: 1.0,
            runs: [
                Box::new(move || {
                    black_box(black_box(&mut *ours).run(black_box(messages), &mut a));
                }),
                Box::new(move || {
                    black_box(black_box(&mut *unchecked).run(black_box(messages), &mut b));
                }),
                Box::new(move || {
                    black_box(black_box(&mut *checked).run(black_box(messages), &mut c));
                }),
                Box::new(move || {
                    for state in states {
                        black_box(black_box(state).valid(page));
                    }
                }),
            ],
        }
    }
}

/// The answer to a message, or to beginning a read, and what is sent.
fn taken<P: CalledPanel>(panel: &mut P, message: Option<&[u8]>) -> (u8, Vec<u8>) {
    let mut out = [7; MESSAGE];
    let last = match message {
        None => panel.begin_read(&mut out),
        Some(message) => panel.receive(message, &mut out),
    };
    assert!(out[last.len..].iter().all(|byte| *byte == 7), "the rest of the buffer is untouched");
    (last.number, out[..last.len].to_vec())
}

fn print(heading: &str, samples: usize, mut cases: Vec<Case>) {
    beside::print(heading, samples, cases.iter_mut().map(Case::line).collect());
}

/// Whole reports, by what the sign holds; and one in which nothing is new.
pub fn reports() {
    let filled = Case::fill("mixed kinds", &mixed(ATTRIBUTES));
    let again = Case::again(&filled);
    // What a run adds to the parts that it takes.
    let begun =
        Case::new("a read begun by a fresh panel".into(), &Panel::fresh(), Messages::default());
    let cases = vec![
        filled,
        Case::fill("booleans, unsigned", &numbers(ATTRIBUTES)),
        Case::fill("mixed, accented", &accented(ATTRIBUTES)),
        again,
        begun,
    ];
    print("The panel: a read begun and taken", SAMPLES, cases);
    let cases = vec![
        Case::fill("texts, ASCII", &texts("BORROW")),
        Case::fill("texts, one é each", &texts("PRÉT")),
        Case::fill("texts, to 3 bytes", &scripts(["a", "é", "借", "り"])),
    ];
    print("The same, texts of 200 bytes", FEWER_SAMPLES, cases);
}

/// Whole reports, by how many blocks they have.
pub fn growth() {
    let cases = [32, 64, 128, ATTRIBUTES].map(|size| Case::fill("mixed kinds", &mixed(size)));
    print("How a report grows", SAMPLES, cases.into());
}
