//! Whole calls of the sign beside ordinary Rust on the same messages: the answers are held to be the same byte for byte, then all are timed.

use std::hint::black_box;

use reference::value::Value;

use crate::beside::{self, Line};
use crate::called::Called;
use crate::library::{Sign, PAYLOAD};
use crate::messages::{filtered_reads, single_reads, single_writes, whole_read, Messages};
use crate::ordinary::{Checked, Unchecked};
use crate::setup::{Setup, ATTRIBUTES, MESSAGE};
use crate::signs::{accented, mixed, number_of, numbers, path, scripts, text_of, texts};

const SAMPLES: usize = 401;
const FEWER_SAMPLES: usize = 101;

/// How many single reads or writes are one run.
const SINGLE: u64 = 16;

/// A run of messages given to signs of one setup.
struct Case {
    name: String,
    messages: Messages,
    /// How many times of one are in a run.
    calls: f64,
    ours: Sign,
    unchecked: Unchecked,
    checked: Checked,
}

impl Case {
    fn new(name: String, setup: &Setup, messages: Messages, calls: u64) -> Case {
        let (ours, calls) = (Sign::new(setup), calls as f64);
        let (mut unchecked, mut checked) = (Unchecked::new(setup), Checked::new(setup));
        for k in 1..=messages.ends.len() {
            let some = messages.first(k);
            let (mut a, mut b, mut c) = ([7; MESSAGE], [7; MESSAGE], [7; MESSAGE]);
            let last = ours.run(&some, &mut a);
            assert_eq!(last, unchecked.run(&some, &mut b), "{name}: message {k}");
            assert_eq!(a, b, "{name}: the reply to message {k}");
            assert_eq!(last, checked.run(&some, &mut c), "{name}: message {k}, checked");
            assert_eq!(a, c, "{name}: the reply to message {k}, checked");
        }
        Case { name, messages, calls, ours, unchecked, checked }
    }

    fn whole(what: &str, setup: &Setup) -> Case {
        let parts = Sign::new(setup).parts(&mut [0; PAYLOAD]);
        let name = format!("{} {what}, {parts} parts", setup.schema.attributes.len());
        Case::new(name, setup, whole_read(parts), 1)
    }

    fn single(name: &str, messages: Messages) -> Case {
        Case::new(name.to_string(), &mixed(ATTRIBUTES), messages, SINGLE)
    }

    fn line(&mut self) -> Line<'_> {
        let Case { name, messages, calls, ours, unchecked, checked } = self;
        let (messages, ours) = (&*messages, &*ours);
        let tests = messages.ends.len();
        let (mut a, mut b, mut c) = ([0; MESSAGE], [0; MESSAGE], [0; MESSAGE]);
        Line {
            name,
            calls: *calls,
            runs: [
                Box::new(move || {
                    black_box(black_box(ours).run(black_box(messages), &mut a));
                }),
                Box::new(move || {
                    black_box(black_box(&mut *unchecked).run(black_box(messages), &mut b));
                }),
                Box::new(move || {
                    black_box(black_box(&mut *checked).run(black_box(messages), &mut c));
                }),
                Box::new(move || {
                    for _ in 0..tests {
                        black_box(black_box(ours).valid());
                    }
                }),
            ],
        }
    }
}

fn print(heading: &str, samples: usize, mut cases: Vec<Case>) {
    beside::print(heading, samples, cases.iter_mut().map(Case::line).collect());
}

/// Whole reads, by what the sign holds.
pub fn reads() {
    let cases = vec![
        Case::whole("mixed kinds", &mixed(ATTRIBUTES)),
        Case::whole("booleans, unsigned", &numbers(ATTRIBUTES)),
        Case::whole("mixed, accented", &accented(ATTRIBUTES)),
        Case::whole("mixed, accented, edited", &accented(ATTRIBUTES).edited()),
    ];
    print("A whole read of everything", SAMPLES, cases);
    let cases = vec![
        Case::whole("texts, ASCII", &texts("BORROW")),
        Case::whole("texts, one é each", &texts("PRÉT")),
        Case::whole("texts, to 3 bytes", &scripts(["a", "é", "借", "り"])),
        Case::whole("texts, ASCII, edited", &texts("BORROW").edited()),
        Case::whole("texts, one é, edited", &texts("PRÉT").edited()),
        Case::whole("texts, to 3 bytes, edited", &scripts(["a", "é", "借", "り"]).edited()),
    ];
    print("The same, texts of 200 bytes", FEWER_SAMPLES, cases);
}

/// Single reads and writes, for each call.
pub fn singles() {
    let (number, text) = (path(number_of(ATTRIBUTES)), path(text_of(ATTRIBUTES)));
    let numbers = [Value::Unsigned(70_000), Value::Unsigned(5)];
    let words = [&b"BORROW - EMPRUNTER"[..], b"WAIT"].map(|word| Value::Text(word.to_vec()));
    let cases = vec![
        Case::single("read of a number", single_reads(SINGLE, &number)),
        Case::single("write of a number", single_writes(SINGLE, &number, &numbers)),
        Case::single("read of a text", single_reads(SINGLE, &text)),
        Case::single("write of a text", single_writes(SINGLE, &text, &words)),
        Case::single("read of all, 32 filters, no change", filtered_reads(SINGLE, ATTRIBUTES)),
        // What a run adds to its calls.
        Case::new("a run with no message".into(), &mixed(ATTRIBUTES), Messages::default(), 1),
    ];
    print("One call, 256 of mixed kinds", SAMPLES, cases);
}

/// Whole reads, by how many attributes there are.
pub fn growth() {
    let cases = [32, 64, 128, ATTRIBUTES].map(|size| Case::whole("mixed kinds", &mixed(size)));
    print("How a read grows", SAMPLES, cases.into());
}
