//! The exchange that a sign serves: how far it has come, the request, the place reached, the kept reply.

use super::rule::{rule, Rule};
use crate::library::{Sign, STANDING_AT};
use crate::setup::{ATTRIBUTES, MESSAGE};

// How the exchange stands, word by word (crates/server_replies/specs/Row.antt).
const LAST: usize = STANDING_AT;
const TURN: usize = STANDING_AT + 1;
const NEXT: usize = STANDING_AT + 2;
const CLOSED: usize = STANDING_AT + 3;
const ASKED: usize = STANDING_AT + 4;
const PLACE_PATH: usize = STANDING_AT + 5;
const PLACE_INDEX: usize = STANDING_AT + 6;
const LENGTH: usize = STANDING_AT + 7;
const PHASE: usize = STANDING_AT + 8;
const SENT: usize = STANDING_AT + 9;

/// Words past a limit, by one and by more.
fn past(limit: u64) -> [u64; 3] {
    [limit + 1, 1 << 63 | limit, u64::MAX]
}

pub fn rules() -> Vec<Rule<Sign>> {
    [progress(), request(), reply(), unserved()].into_iter().flatten().collect()
}

fn progress() -> Vec<Rule<Sign>> {
    const LAST_EXCHANGE: u64 = (1 << 40) - 1;
    vec![
        rule("3.2: the exchange has 40 bits")
            .broken(past(LAST_EXCHANGE), |sign: &mut Sign, word| sign.held.row[LAST] = word)
            .kept([LAST_EXCHANGE], |sign, word| sign.held.row[LAST] = word),
        rule("3.2: the turn has 16 bits")
            .broken(past(65_535), |sign: &mut Sign, word| sign.held.row[TURN] = word)
            .kept([65_535], |sign, word| sign.held.row[TURN] = word),
        rule("3.13: more is promised or not")
            .broken(past(1), |sign: &mut Sign, word| sign.held.row[NEXT] = word)
            .kept([0], |sign, word| sign.held.row[NEXT] = word),
        rule("3.14: the exchange is closed or not")
            .broken(past(1), |sign: &mut Sign, word| sign.held.row[CLOSED] = word)
            .kept([1], |sign, word| sign.held.row[CLOSED] = word),
        rule("3.8: an exchange that was served has a reply")
            .broken([0], |sign: &mut Sign, turn| sign.held.row[TURN] = turn),
    ]
}

fn request() -> Vec<Rule<Sign>> {
    vec![
        rule("6.10: a request has at most 16 paths")
            .broken(past(16), |sign: &mut Sign, word| sign.held.row[ASKED] = word)
            .kept([16], |sign, word| sign.held.row[ASKED] = word),
        // One path is asked for.
        rule("5.10: the place reached is within the request's paths")
            .broken([2, 16, 17, u64::MAX], |sign: &mut Sign, word| sign.held.row[PLACE_PATH] = word)
            .broken([()], |sign, _| {
                (sign.held.row[ASKED], sign.held.row[PLACE_PATH]) = (0, 1);
            })
            .kept([1], |sign, word| sign.held.row[PLACE_PATH] = word)
            .kept([0, 16], |sign, word| {
                (sign.held.row[ASKED], sign.held.row[PLACE_PATH]) = (word, word);
            }),
        rule("5.10: the place reached is within 256 attributes")
            .broken(past(ATTRIBUTES as u64), |sign: &mut Sign, word| {
                sign.held.row[PLACE_INDEX] = word
            })
            .kept([ATTRIBUTES as u64], |sign, word| sign.held.row[PLACE_INDEX] = word),
        rule("1.6: the place reached is among attributes")
            .broken([1, 1 << 32, u64::MAX], |sign: &mut Sign, word| sign.held.row[PHASE] = word),
        rule("1.6: nothing was sent of the place reached")
            .broken([1, 1 << 32, u64::MAX], |sign: &mut Sign, word| sign.held.row[SENT] = word),
        rule("D 4.1: a path and a filter may be any words")
            .kept([0, u64::MAX], |sign: &mut Sign, word| sign.held.row[..STANDING_AT].fill(word)),
    ]
}

fn reply() -> Vec<Rule<Sign>> {
    vec![
        rule("3.1: the kept reply has at most 1,032 bytes")
            .broken(past(MESSAGE as u64), |sign: &mut Sign, word| sign.held.row[LENGTH] = word)
            .kept([MESSAGE as u64], |sign, word| sign.held.row[LENGTH] = word),
        rule("3.1: the kept reply has an envelope of 8 bytes, or is none")
            .broken(1..8, |sign: &mut Sign, word| sign.held.row[LENGTH] = word)
            .kept([0, 8], |sign, word| sign.held.row[LENGTH] = word),
    ]
}

/// How it stands where nothing was served, but for one word.
fn fresh(sign: &mut Sign, at: usize, word: u64) {
    sign.held.row[STANDING_AT..].fill(0);
    sign.held.row[at] = word;
}

fn unserved() -> Vec<Rule<Sign>> {
    vec![
        rule("3.8: with no exchange there is no reply")
            .broken([1, 2, 65_535], |sign: &mut Sign, turn| fresh(sign, TURN, turn))
            .kept([0], |sign, turn| fresh(sign, TURN, turn)),
        rule("3.8: with no exchange nothing is promised")
            .broken([1], |sign: &mut Sign, next| fresh(sign, NEXT, next)),
        rule("3.8: with no exchange nothing is closed")
            .broken([1], |sign: &mut Sign, closed| fresh(sign, CLOSED, closed)),
        rule("3.8: with no exchange nothing is kept")
            .broken([8, MESSAGE as u64], |sign: &mut Sign, len| fresh(sign, LENGTH, len)),
        rule("D 4.1: where nothing was served a place may stand")
            .kept([0, 256], |sign: &mut Sign, index| fresh(sign, PLACE_INDEX, index)),
    ]
}
