//! The published examples of TLV encodings, and the rules that RULES 4 adds.

use reference::tlv::{read, read_payload, write};

fn bytes(words: &str) -> Vec<u8> {
    words.split_whitespace().map(|word| u8::from_str_radix(word, 16).expect("hex")).collect()
}

/// Each is read, and written back as it stands, but for the one that is wider than it need be.
#[test]
fn published_examples() {
    let examples = include_str!("tlv-examples.txt");
    let mut count = 0;
    for line in examples.lines().filter(|line| !line.starts_with('#')) {
        let (words, meaning) = line.split_once(" | ").expect("bytes | meaning");
        let spelled = bytes(words);
        let element = read(&spelled).unwrap_or_else(|| panic!("not read: {meaning}"));
        let least = if words == "01 2A 00" { bytes("00 2A") } else { spelled };
        assert_eq!(write(&element), least, "{meaning}");
        count += 1;
    }
    assert_eq!(count, 35);
}

/// Malformed, each for the one reason named (RULES 4.13).
#[test]
fn malformed_payloads() {
    let cases = [
        ("", "nothing"),
        ("16 18", "not a structure"),
        ("35 01 18", "a tagged structure"),
        ("15", "no end"),
        ("15 24 01 18", "cut short by its own end"),
        ("15 25 01 02 18", "a number cut short"),
        ("15 2C 01 05 61 18", "a text cut short"),
        ("15 33 01 FF FF FF FF FF FF FF FF 18", "a length past every message"),
        ("15 18 18", "bytes after the end"),
        ("15 39 01 18", "a reserved type, 19"),
        ("15 3F 01 18", "a reserved type, 1F"),
        ("15 38 01", "a tagged end"),
        ("15 04 01 18", "an untagged structure member"),
        ("15 36 01 24 01 01 18 18", "a tagged array member"),
        ("15 36 01 44 01 00 01 18 18", "an array member with a profile tag"),
        ("15 35 01 04 01 18 18", "an untagged member of a structure within"),
    ];
    for (words, why) in cases {
        assert_eq!(read_payload(&bytes(words)), None, "{why}");
    }
}

/// The like of those that is well formed.
#[test]
fn well_formed_payloads() {
    let cases = [
        ("15 18", "an empty structure"),
        ("15 37 01 04 01 24 07 01 44 01 00 01 18 18", "a list's members, tagged or not"),
        ("15 33 01 00 00 00 00 00 00 00 00 18", "a length in eight bytes"),
        ("15 E4 F1 FF ED DE ED FE 55 AA 2A 18", "a profile tag in a structure"),
        ("15 2F 01 01 00 00 00 00 00 00 00 FF 18", "a text that is no UTF-8, which no one asks"),
    ];
    for (words, why) in cases {
        assert!(read_payload(&bytes(words)).is_some(), "{why}");
    }
}

/// Depth counts containers: ten may be open at once, a number in the tenth is no eleventh.
#[test]
fn depth() {
    for (containers, passes) in [(1, true), (10, true), (11, false), (500, false)] {
        let words =
            format!("15 {}{}18", "35 01 ".repeat(containers - 1), "18 ".repeat(containers - 1));
        assert_eq!(read_payload(&bytes(&words)).is_some(), passes, "{containers}");
        let inner = "24 01 01 ";
        let words = format!(
            "15 {}{inner}{}18",
            "35 01 ".repeat(containers - 1),
            "18 ".repeat(containers - 1)
        );
        assert_eq!(read_payload(&bytes(&words)).is_some(), passes, "{containers} with a number");
    }
}
