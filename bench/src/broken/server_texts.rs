//! Factory texts, whether they are shown or not, texts that were changed, and the page of edits.

use super::rule::{rule, Rule};
use super::server::{row, CHANGED, NULL_CHANGED, NULL_FRESH, RANKS, SHOWN};
use super::texts::{RIGHT, WRONG};
use crate::library::{Sign, FACTORY};
use crate::setup::TEXT_SIZE;

/// Texts of each standing.
fn ranks() -> Vec<usize> {
    [&SHOWN[..], &CHANGED, &NULL_FRESH, &NULL_CHANGED].concat()
}

fn with<T: Copy>(ranks: &[usize], all: &[T]) -> Vec<(usize, T)> {
    ranks.iter().flat_map(|rank| all.iter().map(move |one| (*rank, *one))).collect()
}

/// The factory text of a rank stands there.
fn point(sign: &mut Sign, rank: usize, start: usize, len: usize) {
    sign.schema[FACTORY + rank] = (start as u64) << 32 | len as u64;
}

/// The factory text of a rank is this, at the end of its page.
fn append(sign: &mut Sign, rank: usize, text: &[u8]) {
    let start = sign.defaults.len();
    sign.defaults.extend_from_slice(text);
    point(sign, rank, start, text.len());
}

/// The factory text of a rank is empty, so far past the end of its page.
fn point_past(sign: &mut Sign, (rank, past): (usize, usize)) {
    let end = sign.defaults.len();
    point(sign, rank, end + past, 0);
}

/// A text is this, changed.
fn edit(sign: &mut Sign, rank: usize, text: &[u8]) {
    sign.edits.get_mut()[TEXT_SIZE * rank..][..text.len()].copy_from_slice(text);
    sign.held.texts[rank] = text.len() as u16 + 1;
}

pub fn rules() -> Vec<Rule<Sign>> {
    [factory_places(), factory_bytes(), marks(), edits(), page()].into_iter().flatten().collect()
}

fn factory_places() -> Vec<Rule<Sign>> {
    const X: [u8; 256] = [b'x'; 256];
    vec![
        rule("2.6: a factory text has at most 200 bytes")
            .broken(with(&ranks(), &[TEXT_SIZE + 1, 256]), |sign: &mut Sign, (rank, len)| {
                append(sign, rank, &X[..len])
            })
            .kept(ranks(), |sign, rank| append(sign, rank, &X[..TEXT_SIZE])),
        rule("2.23: a factory text lies in its page")
            .broken(with(&ranks(), &[1, 10]), |sign: &mut Sign, (rank, past)| {
                append(sign, rank, &X[..10]);
                sign.schema[FACTORY + rank] += past << 32;
            })
            .broken(ranks(), |sign, rank| {
                append(sign, rank, &X[..10]);
                sign.defaults.pop();
            })
            .broken(with(&ranks(), &[1]), point_past)
            .broken(with(&ranks(), &[0, 10]), |sign, (rank, len)| {
                point(sign, rank, u32::MAX as usize, len)
            })
            .kept(ranks(), |sign, rank| append(sign, rank, &X[..10]))
            .kept(with(&ranks(), &[0]), point_past),
    ]
}

fn factory_bytes() -> Vec<Rule<Sign>> {
    vec![
        rule("2.6: a factory text is UTF-8, shown, changed since, or null")
            .broken(with(&ranks(), &WRONG), |sign: &mut Sign, (rank, text)| {
                append(sign, rank, text)
            })
            .kept(with(&ranks(), &RIGHT), |sign, (rank, text)| append(sign, rank, text.as_bytes())),
        rule("2.6: a factory text is UTF-8, a byte of it changed")
            .broken(with(&ranks(), &[0x80, 0xC3, 0xFF]), |sign: &mut Sign, (rank, byte)| {
                let start = (sign.schema[FACTORY + rank] >> 32) as usize;
                sign.defaults[start] = byte;
            })
            .kept(ranks(), |sign, rank| {
                let start = (sign.schema[FACTORY + rank] >> 32) as usize;
                sign.defaults[start] = b'x';
            }),
        // The page may be UTF-8 as a whole: the text begins or ends in the middle of a character.
        rule("2.6: a factory text begins and ends with whole characters")
            .broken(with(&ranks(), &[(0, 5), (2, 2), (2, 1), (4, 1)]), cut)
            .kept(with(&ranks(), &[(1, 5), (3, 1)]), cut),
        rule("D 4.1: bytes of a page that belong to no text are not judged")
            .kept([0x80, 0xFF], |sign: &mut Sign, byte| sign.defaults.push(byte)),
    ]
}

/// The factory text of a rank is cut out of a longer one, in which the bytes 1 and 2 are a character, and 4 and 5 one.
fn cut(sign: &mut Sign, (rank, (from, len)): (usize, (usize, usize))) {
    let start = sign.defaults.len();
    append(sign, rank, "AéBéC".as_bytes());
    point(sign, rank, start + from, len);
}

fn marks() -> Vec<Rule<Sign>> {
    vec![
        rule("D 4.1: a text's mark is at most 201, also of a null one")
            .broken(with(&ranks(), &[202, 256, u16::MAX]), |sign: &mut Sign, (rank, mark)| {
                sign.edits.get_mut()[TEXT_SIZE * rank..][..TEXT_SIZE].fill(b'x');
                sign.held.texts[rank] = mark;
            })
            .kept(with(&ranks(), &[1, 201]), |sign, (rank, mark)| {
                sign.edits.get_mut()[TEXT_SIZE * rank..][..TEXT_SIZE].fill(b'x');
                sign.held.texts[rank] = mark;
            }),
        rule("D 4.1: a text's word is 0").broken(
            with(&[&SHOWN[..], &CHANGED].concat(), &[1, 200, 1 << 32, u64::MAX]),
            text_word,
        ),
    ]
}

fn text_word(sign: &mut Sign, (rank, word): (usize, u64)) {
    sign.held.words[row(4, rank)] = word;
}

fn edits() -> Vec<Rule<Sign>> {
    // Texts that are not null: never changed before, or changed.
    let shown = [&SHOWN[..], &CHANGED].concat();
    let null = [&NULL_FRESH[..], &NULL_CHANGED].concat();
    vec![
        rule("2.6: a changed text is UTF-8; of a null one nothing is shown")
            .broken(with(&shown, &WRONG), |sign: &mut Sign, (rank, text)| edit(sign, rank, text))
            .kept(with(&shown, &RIGHT), |sign, (rank, text)| edit(sign, rank, text.as_bytes()))
            .kept(with(&null, &WRONG), |sign, (rank, text)| edit(sign, rank, text)),
        rule("2.6: a changed text is UTF-8, a byte of it changed")
            .broken(with(&CHANGED, &[0x80, 0xC3, 0xFF]), |sign: &mut Sign, (rank, byte)| {
                sign.edits.get_mut()[TEXT_SIZE * rank] = byte
            }),
        // Its last character goes on where the next text has its place.
        rule("2.6: a changed text of 200 bytes ends with a whole character").broken(
            [2, 26],
            |sign: &mut Sign, rank| {
                edit(sign, rank, &[b'x'; TEXT_SIZE]);
                let end = TEXT_SIZE * (rank + 1);
                sign.edits.get_mut()[end - 1..end + 1].copy_from_slice("é".as_bytes());
            },
        ),
    ]
}

fn page() -> Vec<Rule<Sign>> {
    const SIZE: usize = RANKS * TEXT_SIZE;
    vec![rule("D 3.4: the page of edits has 200 bytes for each text").broken(
        [SIZE - 1, SIZE + 1, SIZE - TEXT_SIZE / 2, SIZE + TEXT_SIZE],
        |sign: &mut Sign, len| sign.edits.get_mut().resize(len, b'x'),
    )]
}
