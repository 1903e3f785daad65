//! The test of refusal 2 beside one part of a report and beside whole calls.

use std::hint::black_box;

use crate::called::Called;
use crate::clock::{medians, Run};
use crate::library::{Sign, PAYLOAD};
use crate::messages::{whole_read, Messages};
use crate::setup::{ATTRIBUTES, MESSAGE};
use crate::signs::{mixed, scripts, texts};

const SAMPLES: usize = 2001;

/// The answers are held to what they must be; the times are not.
fn answers_are_right(sign: &Sign, one: &Messages, two: &Messages) -> usize {
    assert!(sign.valid(), "a fresh sign keeps the rules");
    let mut out = [0; PAYLOAD];
    let first = sign.part(0, 0, &mut out);
    assert!(first.more && first.end <= PAYLOAD, "a part is within its limit, and promises more");
    assert_eq!(out[..4], [0x15, 0x36, 0x01, 0x15], "a report begins with its blocks");
    let mut reply = [0; MESSAGE];
    let last = sign.run(one, &mut reply);
    assert_eq!(last.len, 8 + first.end, "a call answers with the part in an envelope");
    assert_eq!(reply[8..8 + first.end], out[..first.end], "and with nothing else");
    let second = sign.part(first.path, first.index, &mut out);
    let last = sign.run(two, &mut reply);
    assert_eq!(last.len, 8 + second.end, "a success gets the next part");
    assert_eq!(reply[8..8 + second.end], out[..second.end]);
    sign.parts(&mut out)
}

/// What is broken is refused.
fn refusals_are_right(one: &Messages) -> Sign {
    let mut broken = mixed(ATTRIBUTES);
    broken.words[ATTRIBUTES - 1] = u64::MAX;
    assert!(!Sign::new(&broken).valid(), "a value past its limits breaks the rules");
    let mut refused = Sign::new(&mixed(ATTRIBUTES));
    refused.break_first();
    let last = refused.run(one, &mut [0; MESSAGE]);
    assert_eq!((last.number, last.len), (2, 0), "a broken schema is refused with 2");
    refused
}

fn line(name: &str, sign: &Sign, refused: &Sign, one: &Messages, two: &Messages) {
    let parts = answers_are_right(sign, one, two);
    let (mut part_out, mut read_out) = ([0; PAYLOAD], [0; PAYLOAD]);
    let (mut reply, mut second, mut none) = ([0; MESSAGE], [0; MESSAGE], [0; MESSAGE]);
    let runs: Vec<Run> = vec![
        Box::new(|| {
            black_box(black_box(sign).valid());
        }),
        Box::new(|| {
            black_box(black_box(sign).part(0, 0, &mut part_out));
        }),
        Box::new(|| {
            black_box(black_box(sign).parts(&mut read_out));
        }),
        Box::new(|| {
            black_box(black_box(sign).run(one, &mut reply));
        }),
        Box::new(|| {
            black_box(black_box(sign).run(two, &mut second));
        }),
        Box::new(|| {
            black_box(black_box(refused).run(one, &mut none));
        }),
    ];
    let times = medians(SAMPLES, runs);
    let [test, part, read, first, both, refusal] = times[..] else { unreachable!() };
    // The second call alone: what two calls take more than one.
    let next = both - first;
    println!(
        "{name:26} {test:9.0} {part:9.0} {first:9.0} {next:9.0} {refusal:9.0} {:7.2} {:7.2} {parts:6} {read:9.0}",
        test / part,
        test / next,
    );
}

pub fn print() {
    let signs = [
        ("256 of mixed kinds", Sign::new(&mixed(ATTRIBUTES))),
        ("256 texts, ASCII", Sign::new(&texts("BORROW"))),
        ("256 texts, ASCII, edited", Sign::new(&texts("BORROW").edited())),
        ("256 texts, one é each", Sign::new(&texts("PRÉT"))),
        ("256 texts, one é, edited", Sign::new(&texts("PRÉT").edited())),
        ("256 texts, to 3 bytes", Sign::new(&scripts(["a", "é", "借", "り"]))),
        ("256 texts, to 4 bytes", Sign::new(&scripts(["a", "é", "借", "𝄞"]))),
    ];
    println!(
        "{:26} {:>9} {:>9} {:>9} {:>9} {:>9} {:>7} {:>7} {:>6} {:>9}",
        "The test of refusal 2",
        "test ns",
        "part ns",
        "first ns",
        "next ns",
        "refused",
        "t/part",
        "t/call",
        "parts",
        "read ns"
    );
    let (one, two) = (whole_read(1), whole_read(2));
    let refused = refusals_are_right(&one);
    for (name, sign) in &signs {
        line(name, sign, &refused, &one, &two);
    }
}
