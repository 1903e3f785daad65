//! The words of a plan: counts, order, widths, kinds, privileges, ranks, spare words.

use super::rule::{rule, Rule};
use super::server::{row, HELD, KINDS, NOT_NULLABLE, RANKS};
use crate::library::{
    Sign, ATTRIBUTE_COUNT_WORD, CLUSTER_COUNT_WORD, FACTORY, FIRST, HIGH, KEY, LOW, PATH, SPARE,
    TRAITS, VERSION,
};
use crate::setup::{ATTRIBUTES, CLUSTERS, TEXTS};

const LAST: usize = ATTRIBUTES - 1;
/// Two clusters of one endpoint that have no attributes, so that no path of an attribute goes by their order.
const BARE: usize = 29;

pub fn rules() -> Vec<Rule<Sign>> {
    [counts(), orders(), widths(), traits(), ranks()].into_iter().flatten().collect()
}

fn counts() -> Vec<Rule<Sign>> {
    vec![
        rule("2.1: a plan has at most 32 clusters").broken(
            [CLUSTERS as u64 + 1, 1 << 32 | CLUSTERS as u64, u64::MAX],
            |sign: &mut Sign, n| sign.schema[CLUSTER_COUNT_WORD] = n,
        ),
        rule("2.1: a plan has at most 256 attributes").broken(
            [ATTRIBUTES as u64 + 1, 1 << 32 | ATTRIBUTES as u64, u64::MAX],
            |sign: &mut Sign, n| sign.schema[ATTRIBUTE_COUNT_WORD] = n,
        ),
        // Endpoints have even numbers: one more stands between two of them, or behind the last.
        rule("2.1: a plan has at most 8 endpoints")
            .broken([3, 19, 31], |sign: &mut Sign, k| sign.schema[PATH + k] += 1 << 32),
        rule("D 3.1: rows past the counts are not looked at").kept([()], |sign: &mut Sign, _| {
            sign.schema[ATTRIBUTE_COUNT_WORD] = LAST as u64;
            for column in [KEY, TRAITS, LOW, HIGH, FIRST] {
                sign.schema[column + LAST] = u64::MAX;
            }
            sign.schema[FACTORY + RANKS..][..TEXTS - RANKS].fill(u64::MAX);
            (sign.held.words[LAST], sign.held.nulls[LAST]) = (u64::MAX, false);
            sign.held.texts[RANKS..].fill(u16::MAX);
        }),
    ]
}

fn orders() -> Vec<Rule<Sign>> {
    vec![
        rule("2.2: clusters rise")
            .broken([()], |sign: &mut Sign, _| sign.schema.swap(PATH + BARE, PATH + BARE + 1)),
        // On the endpoint before, in the middle of the last one.
        rule("2.2: endpoints rise").broken([2, 14], |sign: &mut Sign, less: u64| {
            sign.schema[PATH + BARE + 1] -= less << 32
        }),
        rule("2.3: no cluster is listed twice").broken([()], |sign: &mut Sign, _| {
            sign.schema[PATH + BARE + 1] = sign.schema[PATH + BARE]
        }),
        rule("2.2: attributes of a cluster rise")
            .broken([0, 6, 120, 254], |sign: &mut Sign, i| sign.schema.swap(KEY + i, KEY + i + 1)),
        rule("2.2: attributes rise by their clusters")
            .broken([7, 127, 231], |sign: &mut Sign, i| sign.schema.swap(KEY + i, KEY + i + 1)),
        rule("2.3: no path is listed twice").broken([0, 6, 120, 254], |sign: &mut Sign, i| {
            sign.schema[KEY + i + 1] = sign.schema[KEY + i]
        }),
        rule("D 3.1: an attribute is in a cluster that is there")
            .broken([CLUSTERS as u64, u32::MAX.into()], |sign: &mut Sign, k| {
                sign.schema[KEY + LAST] = k << 32
            })
            .broken([CLUSTERS as u64 - 1], |sign, n| sign.schema[CLUSTER_COUNT_WORD] = n)
            .kept([()], |sign, _| sign.schema[KEY + LAST] |= u64::from(u32::MAX)),
    ]
}

fn widths() -> Vec<Rule<Sign>> {
    /// All clusters of the last endpoint on another.
    fn on_endpoint(sign: &mut Sign, endpoint: u64) {
        for k in CLUSTERS - 4..CLUSTERS {
            sign.schema[PATH + k] = endpoint << 32 | sign.schema[PATH + k] % (1 << 32);
        }
    }
    vec![
        rule("2.4: an endpoint has 16 bits")
            .broken([1 << 16, u32::MAX.into()], on_endpoint)
            .kept([(1 << 16) - 1], on_endpoint),
        rule("2.5: a version has 32 bits")
            .broken([0, 15, CLUSTERS - 1], |sign: &mut Sign, k| sign.schema[VERSION + k] = 1 << 32)
            .broken([0, 15, CLUSTERS - 1], |sign, k| sign.schema[VERSION + k] = u64::MAX)
            .kept([0, 15, CLUSTERS - 1], |sign, k| {
                sign.schema[VERSION + k] = u32::MAX.into();
            }),
    ]
}

/// These bits of the traits of a row.
fn set(sign: &mut Sign, i: usize, shift: u32, width: u32, value: u64) {
    let word = &mut sign.schema[TRAITS + i];
    *word = *word & !((u64::MAX >> (64 - width)) << shift) | value << shift;
}

fn at_each<const N: usize>(rows: [usize; N], values: &[u64]) -> Vec<(usize, u64)> {
    rows.iter().flat_map(|i| values.iter().map(move |value| (*i, *value))).collect()
}

fn traits() -> Vec<Rule<Sign>> {
    let any = [0, 1, 2, 3, 4, 128, 130, LAST - 1, LAST];
    // A kind that there is none of is decoded as boolean.
    let booleans = HELD.map(|group| row(0, group));
    let numbers = NOT_NULLABLE.map(|group| row(1, group));
    vec![
        rule("2.6: there are five kinds").broken(
            at_each(booleans, &[5, 6, 127, 128, 132, 255]),
            |sign: &mut Sign, (i, code)| set(sign, i, 0, 8, code),
        ),
        rule("2.7: an attribute is nullable or not")
            .broken(at_each(numbers, &[2, 127, 128, 129, 255]), |sign: &mut Sign, (i, code)| {
                set(sign, i, 8, 8, code)
            }),
        rule("2.12: there are four privileges, of reading")
            .broken(at_each(any, &[5, 127, 128, 132, 255]), |sign: &mut Sign, (i, code)| {
                set(sign, i, 16, 8, code)
            })
            .kept(at_each(any, &[0, 4]), |sign, (i, code)| set(sign, i, 16, 8, code)),
        rule("2.12: there are four privileges, of writing")
            .broken(
                at_each(any, &[5, 127, 128, 132, 255, 256, 1 << 31, 1 << 39, (1 << 40) - 1]),
                |sign: &mut Sign, (i, code)| set(sign, i, 24, 40, code),
            )
            .kept(at_each(any, &[0, 3]), |sign, (i, code)| set(sign, i, 24, 40, code)),
    ]
}

fn ranks() -> Vec<Rule<Sign>> {
    let spare: Vec<usize> = (SPARE..PATH).collect();
    vec![
        rule("D 3.1: a text's first word is how many texts stand before it")
            .broken(
                [(0, 1), (1, 0), (26, 25), (26, 27), (50, 49), (50, 51), (50, 255), (0, 256)],
                |sign: &mut Sign, (group, rank)| sign.schema[FIRST + row(4, group)] = rank,
            )
            .broken([0, 26, 50], |sign, group| sign.schema[FIRST + row(4, group)] = u64::MAX)
            .broken([0, 26, 49], |sign, group| {
                let i = FIRST + row(4, group);
                sign.schema.swap(i, i + KINDS)
            }),
        rule("D 3.1: spare words are 0")
            .broken(spare.clone(), |sign: &mut Sign, i| sign.schema[i] = 1)
            .broken(spare, |sign, i| sign.schema[i] = 1 << 63),
    ]
}
