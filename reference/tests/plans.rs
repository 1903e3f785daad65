//! Which plans `start` takes, at and past each limit (RULES 2; refusal 11).

use reference::player::run;

fn start(setup: &str) -> String {
    let (answers, stopped) = run(format!("subject 7\n{setup}\nstart\n").as_bytes());
    assert_eq!(stopped, None, "{setup}");
    answers.trim_end().to_string()
}

fn lines(count: usize, line: impl Fn(usize) -> String) -> String {
    (0..count).map(|number| line(number) + "\n").collect()
}

#[test]
fn counts() {
    let endpoints = |count| lines(count, |number| format!("cluster {number} 6 0"));
    assert_eq!((start(&endpoints(8)), start(&endpoints(9))), ("0".into(), "11".into()));
    let clusters = |count| lines(count, |number| format!("cluster 1 {number} 0"));
    assert_eq!((start(&clusters(32)), start(&clusters(33))), ("0".into(), "11".into()));
    let attributes = |count| {
        let all = lines(count, |number| format!("attribute 1 6 {number} 1 1 0 bool 1"));
        format!("cluster 1 6 0\n{all}")
    };
    assert_eq!((start(&attributes(256)), start(&attributes(257))), ("0".into(), "11".into()));
    // The table is judged where it is lent, not here.
    assert_eq!(start(&lines(17, |_| "access 0 * * *".to_string())), "0");
    assert_eq!(start(""), "0");
}

#[test]
fn order() {
    let cases = [
        ("cluster 1 6 0\ncluster 1 7 0\ncluster 2 5 0", "0"),
        ("cluster 1 7 0\ncluster 1 6 0", "11"),
        ("cluster 2 6 0\ncluster 1 7 0", "11"),
        ("cluster 1 6 0\ncluster 1 6 1", "11"),
    ];
    for (setup, answer) in cases {
        assert_eq!(start(setup), answer, "{setup}");
    }
    let clusters = "cluster 1 6 0\ncluster 1 7 0\ncluster 2 5 0\n";
    let cases: [(&[&str], &str); 8] = [
        (&["1 6 4", "1 6 5", "1 7 0", "2 5 0"], "0"),
        (&["1 6 4", "1 6 4"], "11"),
        (&["1 6 5", "1 6 4"], "11"),
        (&["1 7 4", "1 6 5"], "11"),
        (&["2 5 4", "1 6 5"], "11"),
        (&["1 5 4"], "11"),
        (&["2 6 4"], "11"),
        (&["3 6 4"], "11"),
    ];
    for (paths, answer) in cases {
        let all: String =
            paths.iter().map(|path| format!("attribute {path} 1 1 0 bool 1\n")).collect();
        assert_eq!(start(&format!("{clusters}{all}")), answer, "{paths:?}");
    }
}

/// READ WRITE NULLABLE KIND.. of one attribute, and what `start` answers.
const KINDS: [(&str, &str); 31] = [
    ("1 4 0 bool 0", "0"),
    ("- - 1 bool 1", "0"),
    ("0 1 0 bool 1", "11"),
    ("5 1 0 bool 1", "11"),
    ("1 0 0 bool 1", "11"),
    ("1 5 0 bool 1", "11"),
    ("1 1 0 unsigned 3 3 3", "0"),
    ("1 1 0 unsigned 0 18446744073709551615 18446744073709551615", "0"),
    ("1 1 0 unsigned 4 3 3", "11"),
    ("1 1 0 unsigned 4 5 3", "11"),
    ("1 1 1 unsigned 4 5 6", "11"),
    ("1 1 0 signed -9223372036854775808 -9223372036854775808 -9223372036854775808", "0"),
    ("1 1 0 signed -1 1 -2", "11"),
    ("1 1 0 signed -1 1 2", "11"),
    ("1 1 0 signed 1 -1 0", "11"),
    // -0.0 and 0.0 are equal by float comparison.
    ("1 1 0 float 00000000 80000000 80000000", "0"),
    ("1 1 0 float FF7FFFFF 7F7FFFFF 00000001", "0"),
    ("1 1 0 float 42C80000 00000000 00000000", "11"),
    ("1 1 0 float 00000000 42C80000 42C80001", "11"),
    ("1 1 0 float 00000001 42C80000 80000000", "11"),
    ("1 1 0 float FF800000 42C80000 00000000", "11"),
    ("1 1 0 float 00000000 7F800000 00000000", "11"),
    ("1 1 0 float 7F800000 7F800000 7F800000", "11"),
    ("1 1 0 float 7FC00000 42C80000 00000000", "11"),
    ("1 1 0 float 00000000 7FC00000 00000000", "11"),
    ("1 1 0 float 00000000 42C80000 7FC00000", "11"),
    ("1 1 0 text", "0"),
    ("1 1 0 text F4 8F BF BF", "0"),
    ("1 1 0 text F4 90 80 80", "11"),
    ("1 1 0 text ED A0 80", "11"),
    ("1 1 0 text C3", "11"),
];

#[test]
fn kinds() {
    let long = |length: usize| format!("1 1 0 text{}", " 61".repeat(length));
    let (long_200, long_201) = (long(200), long(201));
    let longs = [(long_200.as_str(), "0"), (long_201.as_str(), "11")];
    for (rest, answer) in KINDS.into_iter().chain(longs) {
        assert_eq!(start(&format!("cluster 1 6 0\nattribute 1 6 0 {rest}")), answer, "{rest}");
    }
}

/// After refusal 11 there is neither end, though there were both before.
#[test]
fn a_second_start() {
    let script =
        "subject 7\ncluster 1 6 0\nstart\nread\nstart\noutcome\ncluster 1 6 0\nstart\noutcome\n";
    let (answers, stopped) = run(script.as_bytes());
    assert_eq!(
        answers,
        "0\n0 02 00 00 00 00 01 00 00 15 36 00 17 18 18 28 03 24 FF 0A 18\n0\n1\n11\n"
    );
    assert!(stopped.is_some_and(|wrong| wrong.starts_with("line 9: ")));
}
