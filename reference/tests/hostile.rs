//! A malformed or hostile script never panics: it is played, or it stops at a line with
//! `line N: ` and what is wrong, and what was answered so far stands.

use std::io::Write;
use std::process::{Command, Stdio};

use reference::generate::hostile;
use reference::player::run;

/// The run either went through or named a line that is there.
fn play(script: &[u8]) -> bool {
    let (answers, stopped) = run(script);
    let lines = script.split(|byte| *byte == b'\n').count();
    assert!(answers.lines().count() <= lines);
    if let Some(wrong) = &stopped {
        let number = wrong.strip_prefix("line ").and_then(|rest| rest.split_once(": "));
        let number: usize = number.expect("line N: ..").0.parse().expect("a number");
        assert!(1 <= number && number <= lines);
    }
    stopped.is_some()
}

#[test]
fn lines_damaged() {
    let stopped = (0..1500).filter(|seed| play(&hostile::damaged_lines(*seed))).count();
    assert!(stopped > 500, "hardly a line was damaged: {stopped}");
}

#[test]
fn words_and_bytes() {
    for seed in 0..4000 {
        play(&hostile::lines_of_any_words(seed));
        play(&hostile::any_bytes(seed));
    }
}

#[test]
fn payloads() {
    for seed in 0..3000 {
        assert!(!play(&hostile::any_payload(seed)));
    }
}

/// Each stops the run.
const UNREADABLE: [&str; 45] = [
    "forward",
    "back",
    "buffer",
    "buffer -1",
    "sign",
    "sign 7 0",
    "sign 7 000",
    "sign 7 0x",
    "panel  01",
    "panel 01 ",
    " read",
    "read ",
    "Read",
    "resend now",
    "change 1 6 0",
    "change 1 6 0 bool 2",
    "change 1 6 0 null 1",
    "change 1 6 0 signed -",
    "change 1 6 0 signed 1-",
    "change 1 6 0 float 7FC0000",
    "change 1 6 0 float 7FC000000",
    "change 1 6 0 unsigned -1",
    "change 1 6 0 unsigned 1.0",
    "write 1 6 0 bool 1",
    "write 1 6 0 4294967296 bool 1",
    "whole 65536 6",
    "whole 1 4294967296",
    "entry 1 6",
    "outcome 1",
    "unknown 1",
    "used 1099511627776",
    "used",
    "attribute 1 6 1 1 1 2 bool 1",
    "attribute 1 6 1 256 1 0 bool 1",
    "attribute 1 6 1 1 1 0 bool",
    "attribute 1 6 1 1 1 0 list",
    "access 256 * * *",
    "access 1 * *",
    "access 1 * * * *",
    "cluster 1 6",
    "subject",
    "subject *",
    "start now",
    "\r",
    "read\r",
];

/// What each kind of unreadable line is taken for.
#[test]
fn lines_that_cant_be_read() {
    let setup = "subject 7\ncluster 1 6 5\nattribute 1 6 0 1 1 1 bool 1\nstart\n";
    for case in UNREADABLE {
        let (answers, stopped) = run(format!("{setup}{case}\nread\n").as_bytes());
        assert_eq!(answers, "0\n", "{case:?}");
        assert!(stopped.is_some_and(|wrong| wrong.starts_with("line 5: ")), "{case:?}");
    }
    let long = format!("{setup}sign 7{}\n", " 00".repeat(2049));
    assert!(run(long.as_bytes()).1.is_some());
    let just = format!("{setup}sign 7{}\n", " 00".repeat(2048));
    assert_eq!(run(just.as_bytes()), ("0\n4\n".to_string(), None));
}

/// Every line but the setup's wants a sign; after refusal 11 there is none.
#[test]
fn lines_without_a_sign() {
    for line in ["buffer 1032", "read", "whole 1 6", "used 1", "outcome", "sign 7 00"] {
        let (answers, stopped) = run(format!("# nothing yet\n\n{line}\n").as_bytes());
        assert_eq!((answers.as_str(), stopped.is_some()), ("", true), "{line}");
        let bad = format!("attribute 1 6 0 1 1 1 bool 1\nstart\n{line}\n");
        let (answers, stopped) = run(bad.as_bytes());
        assert_eq!(answers, "11\n");
        assert!(stopped.is_some_and(|wrong| wrong.starts_with("line 3: ")), "{line}");
    }
}

/// The program itself: answers on one stream, the unreadable line on the other.
#[test]
fn the_program_stops_at_a_bad_line() {
    let mut child = Command::new(env!("CARGO_BIN_EXE_play"))
        .stdin(Stdio::piped())
        .stdout(Stdio::piped())
        .stderr(Stdio::piped())
        .spawn()
        .expect("it starts");
    let script = b"subject 7\nstart\n# a comment\n\noutcome\nnonsense\noutcome";
    child.stdin.take().expect("its input").write_all(script).expect("it reads");
    let output = child.wait_with_output().expect("it ends");
    assert_eq!(String::from_utf8_lossy(&output.stdout), "0\n1\n");
    assert!(String::from_utf8_lossy(&output.stderr).starts_with("line 6: "));
    assert!(!output.status.success());
}
