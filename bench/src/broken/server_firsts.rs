//! First values and limits. What is held keeps its limits in each of these states, or is null.

use super::rule::{rule, Rule};
use super::server::{
    row, FLOAT_HIGH, FLOAT_LOW, HELD, HIGH as UNSIGNED_HIGH, LOW as UNSIGNED_LOW, NOT_NULLABLE,
    NULL, SIGNED_HIGH, SIGNED_LOW,
};
use crate::library::{Sign, FIRST, HIGH, LOW};

/// This word of a kind's row in each of these groups.
fn each(groups: &[usize], words: &[u64]) -> Vec<(usize, u64)> {
    groups.iter().flat_map(|group| words.iter().map(move |word| (*group, *word))).collect()
}

/// Held and null rows alike: of what is held nothing changes.
fn all() -> Vec<usize> {
    [&HELD[..], &NULL].concat()
}

pub fn rules() -> Vec<Rule<Sign>> {
    [numbers(), limits(), floats()].into_iter().flatten().collect()
}

fn numbers() -> Vec<Rule<Sign>> {
    vec![
        rule("2.22: a boolean's first value is 0 or 1")
            .broken(each(&all(), &[2, 256, 1 << 32, u64::MAX]), |sign: &mut Sign, (group, word)| {
                sign.schema[FIRST + row(0, group)] = word
            })
            .kept(all(), |sign, group| sign.schema[FIRST + row(0, group)] = 1),
        rule("2.22: an unsigned first value is within its limits")
            .broken(
                each(&all(), &[UNSIGNED_LOW - 1, UNSIGNED_HIGH + 1, 0, u64::MAX]),
                |sign: &mut Sign, (group, word)| sign.schema[FIRST + row(1, group)] = word,
            )
            .kept(each(&all(), &[UNSIGNED_LOW, UNSIGNED_HIGH]), |sign, (group, word)| {
                sign.schema[FIRST + row(1, group)] = word
            }),
        rule("2.22: a signed first value is within its limits")
            .broken(
                each(&all(), &[SIGNED_LOW - 1, SIGNED_HIGH + 1, i64::MIN, i64::MAX].map(bits)),
                |sign: &mut Sign, (group, word)| sign.schema[FIRST + row(2, group)] = word,
            )
            .kept(each(&all(), &[SIGNED_LOW, SIGNED_HIGH].map(bits)), |sign, (group, word)| {
                sign.schema[FIRST + row(2, group)] = word
            }),
    ]
}

fn bits(number: i64) -> u64 {
    number as u64
}

fn limits() -> Vec<Rule<Sign>> {
    vec![
        // Null is held: no value but the first goes by these limits.
        rule("2.22: a lowest value above the highest leaves no first value")
            .broken(NULL, |sign: &mut Sign, group| {
                sign.schema[LOW + row(1, group)] = UNSIGNED_HIGH + 1
            })
            .broken(NULL, |sign, group| sign.schema[HIGH + row(2, group)] = bits(SIGNED_LOW - 1))
            .broken(NULL, |sign, group| {
                sign.schema.swap(LOW + row(3, group), HIGH + row(3, group))
            }),
        rule("2.10: a signed value may be any of 64 bits").kept(
            NOT_NULLABLE,
            |sign: &mut Sign, group| {
                let i = row(2, group);
                (sign.schema[LOW + i], sign.schema[HIGH + i]) = (bits(i64::MIN), bits(i64::MAX));
                (sign.schema[FIRST + i], sign.held.words[i]) = (bits(i64::MIN), bits(i64::MAX));
            },
        ),
        // As unsigned numbers these limits would be in order, and the first value, -5, between them.
        rule("2.10: signed limits are compared as signed numbers").broken(
            NULL,
            |sign: &mut Sign, group| {
                let i = row(2, group);
                (sign.schema[LOW + i], sign.schema[HIGH + i]) = (0, bits(-1));
            },
        ),
        rule("D 3.1: a boolean's and a text's limits are not looked at").kept(
            [row(0, 0), row(0, 50), row(4, 0), row(4, 50)],
            |sign: &mut Sign, i| {
                (sign.schema[LOW + i], sign.schema[HIGH + i]) = (u64::MAX, 0);
            },
        ),
    ]
}

/// Infinities and two patterns of NaN.
const NOT_FINITE: [u32; 4] = [0x7F80_0000, 0xFF80_0000, 0x7FC0_0000, 0xFFFF_FFFF];

fn floats() -> Vec<Rule<Sign>> {
    let not_finite = each(&NULL, &NOT_FINITE.map(u64::from));
    let word = |float: f32| u64::from(float.to_bits());
    let firsts = [word(FLOAT_LOW), word(FLOAT_HIGH), word(-0.0), 1];
    vec![
        rule("2.8: a float's lowest value is finite")
            .broken(not_finite.clone(), |sign: &mut Sign, (group, word)| {
                sign.schema[LOW + row(3, group)] = word
            })
            .broken(HELD, |sign, group| sign.schema[LOW + row(3, group)] = 0xFF80_0000)
            .kept(HELD, |sign, group| sign.schema[LOW + row(3, group)] = 0xFF7F_FFFF),
        rule("2.8: a float's highest value is finite")
            .broken(not_finite.clone(), |sign: &mut Sign, (group, word)| {
                sign.schema[HIGH + row(3, group)] = word
            })
            .broken(HELD, |sign, group| sign.schema[HIGH + row(3, group)] = 0x7F80_0000)
            .kept(HELD, |sign, group| sign.schema[HIGH + row(3, group)] = 0x7F7F_FFFF),
        rule("2.8: a float's first value is finite and between its lowest and its highest")
            .broken(not_finite, |sign: &mut Sign, (group, word)| {
                sign.schema[FIRST + row(3, group)] = word
            })
            .broken(each(&all(), &[FLOAT_LOW, FLOAT_HIGH].map(word)), |sign, (group, word)| {
                // The next float further from zero.
                sign.schema[FIRST + row(3, group)] = word + 1
            })
            .kept(each(&all(), &firsts), |sign, (group, word)| {
                sign.schema[FIRST + row(3, group)] = word
            }),
        rule("2.6: a float has 32 bits, its limits and its first value too")
            .broken(NULL, |sign: &mut Sign, group| sign.schema[LOW + row(3, group)] |= 1 << 32)
            .broken(NULL, |sign, group| sign.schema[HIGH + row(3, group)] |= 1 << 32)
            .broken(all(), |sign, group| sign.schema[FIRST + row(3, group)] |= 1 << 32),
    ]
}
