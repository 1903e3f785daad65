//! Scripts of damaged lines, of any words, of any bytes, and of messages of any bytes.

use super::script;
use crate::rng::Rng;

const WORDS: [&str; 24] = [
    "",
    "-",
    "*",
    "0",
    "1",
    "-1",
    "00",
    "FF",
    "G0",
    "#",
    "65535",
    "65536",
    "4294967295",
    "4294967296",
    "18446744073709551615",
    "18446744073709551616",
    "-9223372036854775808",
    "-9223372036854775809",
    "1099511627775",
    "null",
    "text",
    "float",
    "7FC00000",
    "+1",
];

const STARTS: [&str; 20] = [
    "subject",
    "cluster",
    "attribute",
    "access",
    "start",
    "buffer",
    "sign",
    "change",
    "read",
    "resend",
    "write",
    "panel",
    "forward",
    "back",
    "whole",
    "entry",
    "outcome",
    "unknown",
    "used",
    "nothing",
];

/// Changes some words of a line, or its bytes.
fn damage(rng: &mut Rng, line: &str) -> Vec<u8> {
    let mut words: Vec<String> = line.split(' ').map(str::to_string).collect();
    let at = rng.below(words.len());
    match rng.below(6) {
        0 => {
            words.remove(at);
        }
        1 => words.insert(at, rng.pick(&WORDS).to_string()),
        2 => words[at] = rng.pick(&WORDS).to_string(),
        3 => words[0] = rng.pick(&STARTS).to_string(),
        4 => words.truncate(at),
        _ => {
            let mut bytes = line.as_bytes().to_vec();
            let at = rng.below(bytes.len().max(1)).min(bytes.len());
            bytes.insert(at, rng.draw() as u8);
            return bytes;
        }
    }
    words.join(" ").into_bytes()
}

/// The script of a seed with some of its lines damaged.
pub fn damaged_lines(seed: u64) -> Vec<u8> {
    let mut rng = Rng::new(seed ^ 0xDA3A);
    let mut lines = Vec::new();
    for line in script(seed).lines {
        if rng.chance(3) {
            lines.extend(damage(&mut rng, &line));
        } else {
            lines.extend(line.as_bytes());
        }
        lines.push(b'\n');
    }
    lines
}

/// Lines put together from words that mean something elsewhere.
pub fn lines_of_any_words(seed: u64) -> Vec<u8> {
    let mut rng = Rng::new(seed);
    let mut script =
        String::from("subject 7\ncluster 1 6 5\nattribute 1 6 0 1 1 1 bool 1\nstart\n");
    for _ in 0..20 {
        script.push_str(rng.pick::<&str>(&STARTS));
        for _ in 0..rng.below(7) {
            script.push(' ');
            script.push_str(rng.pick::<&str>(&WORDS));
        }
        script.push('\n');
    }
    script.into_bytes()
}

pub fn any_bytes(seed: u64) -> Vec<u8> {
    let mut rng = Rng::new(seed);
    let length = rng.below(300);
    rng.bytes(length)
}

/// Messages of any bytes behind an envelope that is let in, so that the readers get to see them.
pub fn any_payload(seed: u64) -> Vec<u8> {
    const CONTROLS: [u8; 16] = [
        0x15, 0x35, 0x36, 0x37, 0x16, 0x17, 0x18, 0x24, 0x25, 0x26, 0x27, 0x2C, 0x33, 0x29, 0x28,
        0xD5,
    ];
    let mut rng = Rng::new(seed);
    let mut script =
        String::from("subject 7\ncluster 1 6 5\nattribute 1 6 0 1 1 1 text\nstart\nread\n");
    for exchange in 1..10 {
        let mut payload = vec![0x15];
        for _ in 0..rng.below(40) {
            let known = *rng.pick(&CONTROLS);
            payload.push(if rng.chance(60) { known } else { rng.below(8) as u8 });
        }
        let hex: String = payload.iter().map(|byte| format!(" {byte:02X}")).collect();
        let opcode = *rng.pick(&[1, 2, 6]);
        script.push_str(&format!("sign 7 {opcode:02X} 00 00 00 00 {exchange:02X} 00 00{hex}\n"));
        let opcode = *rng.pick(&[1, 5, 7]);
        script.push_str(&format!("panel {opcode:02X} 00 00 00 00 01 00 01{hex}\n"));
    }
    script.into_bytes()
}

/// One of these, by the seed.
pub fn hostile(seed: u64) -> Vec<u8> {
    match seed % 4 {
        0 => lines_of_any_words(seed),
        1 => any_payload(seed),
        2 => any_bytes(seed),
        _ => damaged_lines(seed),
    }
}
