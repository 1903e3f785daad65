//! What is held: numbers within their limits, and null.

use super::rule::{rule, Rule};
use super::server::{
    row, FLOAT_HIGH, FLOAT_LOW, HELD, HIGH, KINDS, LOW, NOT_NULLABLE, NULL, NULLABLE, SIGNED_HIGH,
    SIGNED_LOW,
};
use crate::library::Sign;

/// Words for the rows of a kind in these groups.
fn each(kind: usize, groups: &[usize], words: &[u64]) -> Vec<(usize, u64)> {
    let rows = groups.iter().map(|group| row(kind, *group));
    rows.flat_map(|i| words.iter().map(move |word| (i, *word))).collect()
}

fn set(sign: &mut Sign, (i, word): (usize, u64)) {
    sign.held.words[i] = word;
}

pub fn rules() -> Vec<Rule<Sign>> {
    [numbers(), floats(), nulls()].into_iter().flatten().collect()
}

fn numbers() -> Vec<Rule<Sign>> {
    let signed = |numbers: &[i64]| {
        each(2, &HELD, &numbers.iter().map(|number| *number as u64).collect::<Vec<_>>())
    };
    vec![
        rule("2.6: a boolean is 0 or 1")
            .broken(each(0, &HELD, &[2, 256, 1 << 32, u64::MAX]), set)
            .kept(each(0, &HELD, &[0]), set),
        rule("2.6: an unsigned number is within its limits")
            .broken(each(1, &HELD, &[LOW - 1, HIGH + 1, 0, u64::MAX]), set)
            .kept(each(1, &HELD, &[LOW, HIGH]), set),
        rule("2.6: a signed number is within its limits")
            .broken(signed(&[SIGNED_LOW - 1, SIGNED_HIGH + 1, i64::MIN, i64::MAX]), set)
            .kept(signed(&[SIGNED_LOW, SIGNED_HIGH, -1, 0]), set),
    ]
}

fn floats() -> Vec<Rule<Sign>> {
    let word = |float: f32| u64::from(float.to_bits());
    let ends = [FLOAT_LOW, FLOAT_HIGH].map(word);
    vec![
        // The next float further from zero.
        rule("2.9: a float is within its limits")
            .broken(each(3, &HELD, &ends.map(|word| word + 1)), set)
            .kept(each(3, &HELD, &ends), set)
            .kept(each(3, &HELD, &[word(-0.0), 0, 1]), set),
        rule("2.9: NaN is never in range, nor is an infinity here")
            .broken(each(3, &HELD, &[0x7FC0_0000, 0x7F80_0001, 0xFFFF_FFFF]), set)
            .broken(each(3, &HELD, &[0x7F80_0000, 0xFF80_0000]), set),
        rule("2.6: a float has 32 bits")
            .broken(each(3, &HELD, &[1 << 32 | word(2.5), 1 << 63 | word(2.5)]), set),
    ]
}

fn nulls() -> Vec<Rule<Sign>> {
    let rows = |groups: &[usize]| -> Vec<usize> {
        groups.iter().flat_map(|group| (0..KINDS).map(move |kind| row(kind, *group))).collect()
    };
    let null = |sign: &mut Sign, i: usize| (sign.held.nulls[i], sign.held.words[i]) = (true, 0);
    let words = [1, 500, 1 << 32, u64::MAX];
    let all = |kind| each(kind, &NULL, &words);
    vec![
        rule("2.7: null is held only where it is allowed")
            .broken(rows(&NOT_NULLABLE), null)
            .kept(rows(&NULLABLE), null),
        rule("D 3.2: null is stored with the word 0")
            .broken((0..KINDS).flat_map(all).collect::<Vec<_>>(), set),
    ]
}
