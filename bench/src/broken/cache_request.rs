//! The panel's newest request, and the words in which it is lent.

use super::rule::{rule, Rule};
use crate::panel::{
    Panel, ATTRIBUTE, CLUSTER, ENDPOINT, EXCHANGE, LENGTH, SPARE, STAGE, STATUS, TURN, UNKNOWN,
    USED,
};
use crate::setup::MESSAGE;

const READING: u64 = 1;
const WRITING: u64 = 2;
const LAST_PART: u64 = 3;
const WITH_STATUS: u64 = 4;

/// Words past a limit, by one and by more.
fn past(limit: u64) -> [u64; 3] {
    [limit + 1, 1 << 63 | limit, u64::MAX]
}

/// A request that stands so: its message was sent, and its first reply is awaited.
fn standing(panel: &mut Panel, stage: u64) {
    let asked = &mut panel.held.asked;
    (asked[USED], asked[EXCHANGE], asked[STAGE]) = (9, 8, stage);
    (asked[TURN], asked[STATUS], asked[UNKNOWN], asked[LENGTH]) = (1, 0, 7, 40);
}

/// With one word changed.
fn stands(panel: &mut Panel, (stage, at, word): (u64, usize, u64)) {
    standing(panel, stage);
    panel.held.asked[at] = word;
}

/// One word, however the request stands.
fn each(at: usize, words: &[u64]) -> Vec<(u64, usize, u64)> {
    let stages = [0, READING, WRITING, LAST_PART, WITH_STATUS];
    stages.iter().flat_map(|stage| words.iter().map(move |word| (*stage, at, *word))).collect()
}

/// One word of an open request.
fn open(at: usize, word: u64) -> [(u64, usize, u64); 2] {
    [(READING, at, word), (WRITING, at, word)]
}

/// One word of a request that is not open.
fn ended(at: usize, word: u64) -> [(u64, usize, u64); 3] {
    [(0, at, word), (LAST_PART, at, word), (WITH_STATUS, at, word)]
}

pub fn rules() -> Vec<Rule<Panel>> {
    [exchanges(), standings(), opens(), words()].into_iter().flatten().collect()
}

fn exchanges() -> Vec<Rule<Panel>> {
    const LAST_EXCHANGE: u64 = (1 << 40) - 1;
    vec![
        rule("3.2: the highest number used has 40 bits")
            .broken(each(USED, &past(LAST_EXCHANGE)), stands)
            .kept(each(USED, &[LAST_EXCHANGE]), stands),
        rule("3.4: the request's exchange is one that was used")
            .broken(each(EXCHANGE, &past(9)), stands)
            .kept(each(EXCHANGE, &[9]), stands),
        rule("7.6: the newest unknown write's exchange is one that was used")
            .broken(each(UNKNOWN, &past(9)), stands)
            .kept(each(UNKNOWN, &[0, 9]), stands),
    ]
}

fn standings() -> Vec<Rule<Panel>> {
    let stages = past(WITH_STATUS).map(|stage| (READING, STAGE, stage));
    let all = [0, READING, WRITING, LAST_PART, WITH_STATUS];
    vec![
        rule("D 5.3: a request is none, a read, a write, or has ended in one of two ways")
            .broken(stages, stands)
            .broken([(WRITING, STAGE, 1 << 32 | WRITING)], stands)
            .kept(all, standing),
        rule("3.1: the newest message has at most 1,032 bytes")
            .broken(each(LENGTH, &past(MESSAGE as u64)), stands)
            .kept(each(LENGTH, &[1, MESSAGE as u64]), stands)
            .kept(ended(LENGTH, 0), stands),
    ]
}

fn opens() -> Vec<Rule<Panel>> {
    vec![
        rule("3.4: what is open has an exchange from 1 on")
            .broken(open(EXCHANGE, 0), stands)
            .kept(open(EXCHANGE, 1), stands)
            .kept(ended(EXCHANGE, 0), stands),
        rule("3.6: what is open awaits a turn from 1 on")
            .broken(open(TURN, 0), stands)
            .kept(ended(TURN, 0), stands),
        rule("D 5.1: an open write awaits turn 1")
            .broken([(WRITING, TURN, 2), (WRITING, TURN, 65_535)], stands)
            .kept([(READING, TURN, 2), (READING, TURN, 65_535)], stands),
        rule("D 5.1: what is open has sent a message")
            .broken(open(LENGTH, 0), stands)
            .kept(open(LENGTH, 1), stands),
    ]
}

fn words() -> Vec<Rule<Panel>> {
    // An open write awaits turn 1 and no other.
    let turns = |word| [(0, TURN, word), (READING, TURN, word), (LAST_PART, TURN, word)];
    vec![
        rule("3.2: a turn has 16 bits")
            .broken(turns(1 << 16), stands)
            .broken(turns(1 << 32 | 1), stands)
            .kept(turns(65_535), stands),
        rule("4.12: a status has 8 bits")
            .broken(each(STATUS, &past(255)), stands)
            .kept(each(STATUS, &[255]), stands),
        rule("2.4: the endpoint that is written has 16 bits")
            .broken(each(ENDPOINT, &past(65_535)), stands)
            .kept(each(ENDPOINT, &[65_535]), stands),
        rule("2.4: the cluster that is written has 32 bits")
            .broken(each(CLUSTER, &past(u32::MAX.into())), stands)
            .kept(each(CLUSTER, &[u32::MAX.into()]), stands),
        rule("2.4: the attribute that is written has 32 bits")
            .broken(each(ATTRIBUTE, &past(u32::MAX.into())), stands)
            .kept(each(ATTRIBUTE, &[u32::MAX.into()]), stands),
        rule("D 5.3: spare words are 0")
            .broken(each(SPARE, &[1, 1 << 63]), stands)
            .broken(each(SPARE + 1, &[1, 1 << 63]), stands)
            .broken(each(SPARE + 2, &[1, 1 << 63]), stands),
    ]
}
