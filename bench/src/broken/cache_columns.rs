//! What a panel holds: counts, clusters, orders, entries, texts, the page.

use super::rule::{rule, Rule};
use super::texts::{RIGHT, WRONG};
use crate::panel::{Held, Panel, CLUSTER_COUNT, COUNT, NO_VERSION, PAGE, PRIMED};
use crate::setup::{ATTRIBUTES, CLUSTERS, TEXTS, TEXT_SIZE};

const NULL: u8 = 0;
const BOOL: u8 = 1;
const UNSIGNED: u8 = 2;
const SIGNED: u8 = 3;
const FLOAT: u8 = 4;
const TEXT: u8 = 5;

/// Which of the entries of a kind: the first, one between, or the last.
const WHICH: [usize; 3] = [0, 2, usize::MAX];

fn entry(held: &Held, kind: u8, which: usize) -> usize {
    let all: Vec<usize> = (0..held.count()).filter(|i| held.kinds[*i] == kind).collect();
    all[which.min(all.len() - 1)]
}

/// The place of a text.
fn place(held: &Held, which: usize) -> usize {
    held.words[entry(held, TEXT, which)] as usize
}

fn with<T: Copy>(all: &[T]) -> Vec<(usize, T)> {
    WHICH.iter().flat_map(|which| all.iter().map(move |one| (*which, *one))).collect()
}

fn of_kinds<T: Copy>(kinds: &[u8], all: &[T]) -> Vec<(u8, usize, T)> {
    let mut several = Vec::new();
    for kind in kinds {
        several.extend(with(all).into_iter().map(|(which, one)| (*kind, which, one)));
    }
    several
}

fn set_word(panel: &mut Panel, (kind, which, word): (u8, usize, u64)) {
    let i = entry(&panel.held, kind, which);
    panel.held.words[i] = word;
}

/// Position j of the order of the entries or, from 256 on, of the clusters.
fn at(held: &Held, j: usize) -> usize {
    held.order[j].into()
}

pub fn rules() -> Vec<Rule<Panel>> {
    [counts(), clusters(), orders(), entries(), words(), places(), texts()]
        .into_iter()
        .flatten()
        .collect()
}

/// 33 clusters, and nothing else is wrong: past the 32 words a word counts as 0, and past the order's bytes the place 0. So the order names place 32 first,
/// then all but the greatest cluster, which is at place 0.
fn one_cluster_more(panel: &mut Panel, _: ()) {
    let Held { clusters, order, asked, .. } = &mut panel.held;
    for (k, word) in clusters.iter_mut().enumerate().skip(asked[CLUSTER_COUNT] as usize) {
        *word = 1 << 32 | k as u64;
    }
    let mut places: Vec<u8> = (1..CLUSTERS as u8).collect();
    places.sort_by_key(|k| clusters[usize::from(*k)]);
    order[ATTRIBUTES] = CLUSTERS as u8;
    order[ATTRIBUTES + 1..].copy_from_slice(&places);
    asked[CLUSTER_COUNT] = CLUSTERS as u64 + 1;
}

fn counts() -> Vec<Rule<Panel>> {
    vec![
        // A 257th entry has no place in the order, which is broken with it.
        rule("2.1: at most 256 entries")
            .broken([257, 1 << 32 | 40, u64::MAX], |panel: &mut Panel, n| {
                panel.held.asked[COUNT] = n
            }),
        rule("2.1: at most 32 clusters")
            .broken([()], one_cluster_more)
            .broken([33, 1 << 32 | 5, u64::MAX], |panel, n| panel.held.asked[CLUSTER_COUNT] = n),
        rule("7.10: the panel is filled or not")
            .broken([2, 256, 1 << 32, u64::MAX], |panel: &mut Panel, word| {
                panel.held.asked[PRIMED] = word
            })
            .kept([0], |panel, word| panel.held.asked[PRIMED] = word),
        rule("D 5.1: the page has 51,200 bytes")
            .broken([0, PAGE - TEXT_SIZE, PAGE - 1, PAGE + 1], |panel: &mut Panel, len| {
                panel.page.resize(len, b'x')
            }),
    ]
}

fn clusters() -> Vec<Rule<Panel>> {
    vec![
        // That at place 0 is the greatest, and stays so.
        rule("2.4: an endpoint has 16 bits")
            .broken([48, 49, 63], |panel: &mut Panel, bit| panel.held.clusters[0] |= 1 << bit)
            .kept([()], |panel, _| panel.held.clusters[0] = u64::MAX >> 16),
        rule("2.3: no cluster is held twice").broken([0, 2, 3], |panel: &mut Panel, j| {
            let held = &mut panel.held;
            held.clusters[at(held, ATTRIBUTES + j + 1)] = held.clusters[at(held, ATTRIBUTES + j)];
        }),
        rule("D 5.1: the clusters' order rises").broken([0, 2, 3], |panel: &mut Panel, j| {
            panel.held.order.swap(ATTRIBUTES + j, ATTRIBUTES + j + 1)
        }),
        rule("D 5.1: no place stands twice in the clusters' order")
            .broken([0, 2, 3], |panel: &mut Panel, j| {
                panel.held.order[ATTRIBUTES + j] = panel.held.order[ATTRIBUTES + j + 1]
            })
            .broken([0, 2, 3], |panel, j| {
                panel.held.order[ATTRIBUTES + j + 1] = panel.held.order[ATTRIBUTES + j]
            }),
        // A word past all clusters counts as 0, which is below all others.
        rule("D 5.1: the clusters' order names clusters that there are")
            .broken([CLUSTERS as u8, 255], |panel: &mut Panel, place| {
                panel.held.order[ATTRIBUTES] = place
            }),
    ]
}

fn orders() -> Vec<Rule<Panel>> {
    vec![
        rule("2.3: no path is held twice").broken([0, 7, 15, 38], |panel: &mut Panel, j| {
            panel.held.keys[at(&panel.held, j + 1)] = panel.held.keys[at(&panel.held, j)]
        }),
        rule("D 5.1: the entries' order rises")
            .broken([0, 7, 15, 38], |panel: &mut Panel, j| panel.held.order.swap(j, j + 1)),
        rule("D 5.1: no place stands twice in the entries' order")
            .broken([0, 7, 15, 38], |panel: &mut Panel, j| {
                panel.held.order[j] = panel.held.order[j + 1]
            })
            .broken([0, 7, 15, 38], |panel, j| panel.held.order[j + 1] = panel.held.order[j]),
    ]
}

/// Rules that a panel of 256 entries or 32 clusters cannot break: a byte is a place that there is, and no word stands past the counts.
pub fn of_fewer() -> Vec<Rule<Panel>> {
    vec![
        rule("D 5.1: the entries' order names entries that there are")
            .broken([()], |panel: &mut Panel, _| {
                let held = &mut panel.held;
                held.keys[held.count()] = 0;
                held.order[0] = held.count() as u8;
            })
            .broken([()], |panel, _| {
                let held = &mut panel.held;
                let last = held.count() - 1;
                held.keys[last + 1] = held.keys[at(held, last)] + 1;
                held.order[last] = last as u8 + 1;
            }),
        rule("D 5.1: the clusters' order names clusters within their count").broken(
            [()],
            |panel: &mut Panel, _| {
                let held = &mut panel.held;
                held.order[ATTRIBUTES] = held.cluster_count() as u8;
            },
        ),
        rule("D 5.1: what stands past the counts is not looked at").kept(
            [0, u64::MAX],
            |panel: &mut Panel, word| {
                let Held { clusters, keys, versions, kinds, words, order, asked, .. } =
                    &mut panel.held;
                let (count, cluster_count) = (asked[COUNT] as usize, asked[CLUSTER_COUNT] as usize);
                clusters[cluster_count..].fill(word);
                keys[count..].fill(word);
                versions[count..].fill(word);
                kinds[count..].fill(word as u8);
                words[count..].fill(word);
                order[count..ATTRIBUTES].fill(1);
                order[ATTRIBUTES + cluster_count..].fill(255);
            },
        ),
    ]
}

/// The entry of the greatest key is of the cluster at this place, so many past the last one.
fn last_in(panel: &mut Panel, past: i64) {
    let held = &mut panel.held;
    let cluster = (held.asked[CLUSTER_COUNT] as i64 - 1 + past) as u64;
    held.keys[at(held, held.count() - 1)] = cluster << 32 | u64::from(u32::MAX);
}

fn entries() -> Vec<Rule<Panel>> {
    let kinds = [NULL, BOOL, UNSIGNED, SIGNED, FLOAT, TEXT];
    let set_version = |panel: &mut Panel, (kind, which, version): (u8, usize, u64)| {
        let i = entry(&panel.held, kind, which);
        panel.held.versions[i] = version;
    };
    vec![
        rule("D 5.1: an entry is of a cluster that is there")
            .broken([1, 2, 1 << 31], last_in)
            .kept([0], last_in),
        rule("2.5: a version has 32 bits, or is none, which is 2^32")
            .broken(of_kinds(&kinds, &[NO_VERSION + 1, 1 << 33, u64::MAX]), set_version)
            .kept(of_kinds(&kinds, &[0, NO_VERSION - 1, NO_VERSION]), set_version),
        rule("2.6: an entry is null or of one of the five kinds").broken(
            of_kinds(&kinds, &[6, 7, 128, 133, 255]),
            |panel: &mut Panel, (kind, which, other)| {
                let i = entry(&panel.held, kind, which);
                (panel.held.kinds[i], panel.held.words[i]) = (other, 0);
            },
        ),
    ]
}

fn words() -> Vec<Rule<Panel>> {
    let wide = [2, 256, 1 << 32, u64::MAX];
    vec![
        rule("D 5.1: null has the word 0").broken(of_kinds(&[NULL], &[1, 256, u64::MAX]), set_word),
        rule("2.6: a boolean's word is 0 or 1").broken(of_kinds(&[BOOL], &wide), set_word).kept(
            with(&[0, 1]),
            |panel, (which, word)| {
                // Either of them is held already: the version is another in any case.
                let i = entry(&panel.held, BOOL, which);
                (panel.held.words[i], panel.held.versions[i]) = (word, 1);
            },
        ),
        rule("2.6: a float's word has 32 bits, which may be a NaN's")
            .broken(of_kinds(&[FLOAT], &[1 << 32, 1 << 63, u64::MAX]), set_word)
            .kept(of_kinds(&[FLOAT], &[0x7FC0_0000, u32::MAX.into()]), set_word),
        rule("2.6: a number has any 64 bits")
            .kept(of_kinds(&[UNSIGNED, SIGNED], &[1, 1 << 63, u64::MAX]), set_word),
    ]
}

fn places() -> Vec<Rule<Panel>> {
    vec![
        rule("D 5.1: a text has one of the 256 places")
            .broken(of_kinds(&[TEXT], &[TEXTS as u64, 1 << 32, 1 << 32 | 255, u64::MAX]), set_word)
            .kept(WHICH, |panel: &mut Panel, which| {
                (panel.held.lengths[TEXTS - 1], panel.page[PAGE - TEXT_SIZE]) = (1, b'x');
                set_word(panel, (TEXT, which, TEXTS as u64 - 1));
            }),
        rule("D 5.1: no two texts have one place").broken(
            [(0, 1), (1, 0), (0, usize::MAX), (usize::MAX, 2)],
            |panel: &mut Panel, (which, other)| {
                let word = place(&panel.held, other) as u64;
                set_word(panel, (TEXT, which, word));
            },
        ),
    ]
}

/// One of the texts is this.
fn set_text(panel: &mut Panel, which: usize, text: &[u8]) {
    let place = place(&panel.held, which);
    panel.page[TEXT_SIZE * place..][..text.len()].copy_from_slice(text);
    panel.held.lengths[place] = text.len() as u16;
}

fn texts() -> Vec<Rule<Panel>> {
    const X: [u8; 256] = [b'x'; 256];
    vec![
        rule("2.6: a text has at most 200 bytes")
            .broken(with(&[201, 256]), |panel: &mut Panel, (which, len)| {
                set_text(panel, which, &X[..len])
            })
            .kept(with(&[0, TEXT_SIZE]), |panel, (which, len)| set_text(panel, which, &X[..len])),
        rule("2.6: a text is UTF-8")
            .broken(with(&WRONG), |panel: &mut Panel, (which, text)| set_text(panel, which, text))
            .broken(with(&[0x80, 0xC3, 0xFF]), |panel, (which, byte)| {
                let start = TEXT_SIZE * place(&panel.held, which);
                panel.page[start] = byte;
            })
            .kept(with(&RIGHT), |panel, (which, text)| set_text(panel, which, text.as_bytes())),
        // Its last character goes on where the next text has its place, which is empty.
        rule("2.6: a text of 200 bytes ends with a whole character").broken(
            [0, 2],
            |panel: &mut Panel, which| {
                set_text(panel, which, &X[..TEXT_SIZE]);
                let next = place(&panel.held, which) + 1;
                panel.held.lengths[next] = 0;
                let end = TEXT_SIZE * next;
                panel.page[end - 1..end + 1].copy_from_slice("é".as_bytes());
            },
        ),
        rule("D 5.1: what stands at places that no text has is not looked at").kept(
            [()],
            |panel: &mut Panel, _| {
                panel.page[PAGE - TEXT_SIZE..].fill(0xFE);
                panel.held.lengths[TEXTS - 1] = 201;
            },
        ),
    ]
}
