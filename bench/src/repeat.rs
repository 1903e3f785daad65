//! One run repeated without a clock, to be looked at with a profiler.

use std::hint::black_box;

use reference::value::Value;

use crate::called::{Called, CalledPanel};
use crate::library::{Sign, PAYLOAD};
use crate::messages::{filtered_reads, single_reads, single_writes, whole_read, Messages};
use crate::ordinary::{Checked, Unchecked};
use crate::ordinary_panel;
use crate::panel::Panel;
use crate::setup::MESSAGE;
use crate::signs::{mixed, number_of, path};

/// A run of ours over so many attributes of mixed kinds; with `-rust` after its name that in ordinary Rust, with `-checked` that with its test.
pub fn repeat(name: &str, attributes: usize, times: usize) {
    let setup = mixed(attributes);
    let sign = Sign::new(&setup);
    let whole = whole_read(sign.parts(&mut [0; PAYLOAD]));
    let number = path(number_of(attributes));
    let (run, whose) = match name.rsplit_once('-') {
        Some((run, whose @ ("rust" | "checked"))) => (run, whose),
        _ => (name, "ours"),
    };
    let messages = match run {
        "whole-read" => whole,
        "filtered-read" => filtered_reads(16, attributes),
        "single-read" => single_reads(16, &number),
        "single-write" => {
            single_writes(16, &number, &[Value::Unsigned(70_000), Value::Unsigned(5)])
        }
        "report" => return repeat_report(whose, &sign.replies(&whole), times),
        _ => panic!("bench/README.md has the names of the runs"),
    };
    let mut out = [0; MESSAGE];
    let (mut unchecked, mut checked) = (Unchecked::new(&setup), Checked::new(&setup));
    for _ in 0..times {
        let messages = black_box(&messages);
        match whose {
            "ours" => black_box(sign.run(messages, &mut out)),
            "rust" => black_box(unchecked.run(messages, &mut out)),
            _ => black_box(checked.run(messages, &mut out)),
        };
    }
}

/// A fresh panel begins a read and takes a report.
fn repeat_report(whose: &str, parts: &Messages, times: usize) {
    let (mut ours, mut out) = (Panel::fresh(), [0; MESSAGE]);
    let mut unchecked = ordinary_panel::Unchecked::fresh();
    let mut checked = ordinary_panel::Checked::fresh();
    for _ in 0..times {
        let parts = black_box(parts);
        match whose {
            "ours" => _ = black_box(ours.run(parts, &mut out)),
            "rust" => _ = black_box(unchecked.run(parts, &mut out)),
            _ => _ = black_box(checked.run(parts, &mut out)),
        }
    }
}
