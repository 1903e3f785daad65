//! A generator of scripts: a seed gives a script, always the same one.

mod bad_plan;
mod damage;
mod disguise;
mod filter_scenes;
mod honest_scenes;
pub mod hostile;
mod limit_scenes;
pub mod maker;
mod panel_scenes;
pub mod plan;
mod requests;
mod sign_scenes;
pub mod values;

use std::collections::BTreeMap;

use self::maker::Maker;
use self::plan::Size;
use crate::answer::BAD_SCHEMA;
use crate::envelope::{seal, Envelope, READ_REQUEST, REPORT};
use crate::limits::{LAST_EXCHANGE, LAST_TURN};
use crate::spelling;
use crate::tlv::write;

pub struct Generated {
    pub lines: Vec<String>,
    /// How often each situation came about, by its name.
    pub notes: BTreeMap<&'static str, u32>,
}

impl Generated {
    pub fn text(&self) -> String {
        self.lines.iter().map(|line| format!("{line}\n")).collect()
    }
}

pub fn script(seed: u64) -> Generated {
    let mut maker = Maker::new(seed);
    maker.say(&format!("# seed {seed}"));
    begin(&mut maker);
    if maker.running() {
        let length = maker.length() + maker.rng.between(30, 120);
        while maker.length() < length && maker.running() {
            scene(&mut maker);
        }
        ending(&mut maker);
    }
    let (lines, notes) = maker.finish();
    Generated { lines, notes }
}

/// The setup and `start`. A bad plan leaves no sign, a bad table one that answers 2 alone.
fn begin(maker: &mut Maker) {
    if maker.rng.chance(10) {
        let (ground, schema) = bad_plan::schema(maker);
        plan::say(maker, &schema, &[]);
        if maker.say("start").0 == BAD_SCHEMA {
            maker.note(ground);
        }
        if maker.rng.chance(30) {
            maker.say("read");
            maker.note("a line with nothing to work on");
        }
        return;
    }
    let size = match maker.rng.below(20) {
        0 => Size::Full,
        1..=9 => Size::Wordy,
        _ => Size::Small,
    };
    let schema = plan::sound(&mut maker.rng, size);
    let mut table = plan::table(&mut maker.rng, &schema);
    if maker.rng.chance(7) {
        plan::bad_table(maker, &mut table);
    }
    plan::say(maker, &schema, &table);
    maker.say("start");
    if size == Size::Full {
        maker.note("8 endpoints, 32 clusters, 256 attributes");
    }
}

fn scene(maker: &mut Maker) {
    match maker.rng.below(60) {
        0..=9 => honest_scenes::read(maker),
        10..=14 => honest_scenes::write(maker),
        15..=19 => sign_scenes::read(maker),
        20..=24 => sign_scenes::write_action(maker),
        25 | 26 => sign_scenes::damaged(maker),
        27 => sign_scenes::odd_envelope(maker),
        28 => sign_scenes::other_subject(maker),
        29 => sign_scenes::odd_status(maker),
        30 => limit_scenes::counts(maker),
        31 => limit_scenes::lengths(maker),
        32 => limit_scenes::depth(maker),
        33 => limit_scenes::missing_or_twice(maker),
        34 | 35 => filter_scenes::skipped_then_changed(maker),
        36 => filter_scenes::promised_then_skipped(maker),
        37 => filter_scenes::one_of_two_agrees(maker),
        38 => filter_scenes::exact_part(maker),
        39..=41 => panel_scenes::report(maker),
        42 => panel_scenes::refused_block(maker),
        43 => panel_scenes::write_response(maker),
        44 => panel_scenes::status(maker),
        45 => panel_scenes::not_awaited(maker),
        46 => panel_scenes::limits(maker),
        47 if maker.rng.chance(30) => panel_scenes::crowd(maker),
        48 => honest_scenes::short_buffer(maker),
        49 => honest_scenes::stale_to_sign(maker),
        50 => honest_scenes::stale_to_panel(maker),
        51 | 52 => honest_scenes::questions(maker),
        53 => {
            maker.say("resend");
        }
        54 | 55 => limit_scenes::refused_forms(maker),
        56 => limit_scenes::missing_or_twice(maker),
        _ => sign_scenes::any_change(maker),
    }
}

/// Some scripts end where no number is left, at a second start, or at a line that can't be read.
fn ending(maker: &mut Maker) {
    match maker.rng.below(12) {
        0 | 1 => honest_scenes::last_numbers(maker),
        2 => {
            let tree = spelling::read_request(vec![], vec![]);
            for exchange in [LAST_EXCHANGE - 1, LAST_EXCHANGE, LAST_EXCHANGE, 1] {
                let message = requests::message(&mut maker.rng, READ_REQUEST, exchange, 0, &tree);
                maker.sign(&message);
            }
            maker.note("exchange 2^40 - 1 at the sign");
        }
        3 => {
            maker.say("buffer 1032");
            maker.say("start");
            maker.note("a second start");
            honest_scenes::questions(maker);
            honest_scenes::read(maker);
        }
        4 => unreadable(maker),
        _ => honest_scenes::questions(maker),
    }
}

/// A line that can't be read stops the run.
fn unreadable(maker: &mut Maker) {
    let long = format!("sign 7{}", " 00".repeat(2049));
    let lines = [
        "wholly 1 6",
        "whole 1",
        "whole 65536 6",
        "whole 1 4294967296",
        "outcome now",
        "entry 1 6 -1",
        "change 1 6 0 bool 2",
        "change 1 6 0 signed 9223372036854775808",
        "change 1 6 0 float 3F80000",
        "panel 0",
        "panel 0G",
        "used 1099511627776",
        "sign 18446744073709551616 00",
        long.as_str(),
    ];
    let line = *maker.rng.pick(&lines);
    maker.say(line);
    if maker.stopped() {
        maker.note("a line that can't be read");
    }
}

/// One read whose parts go on to turn 65,535, where no more may be promised: 6, and then an end.
/// Too long for a kept script and for every seed.
pub fn turns() -> String {
    let mut script = String::from("# a read to its last turn\nsubject 7\nstart\nread\n");
    let more = write(&spelling::report(vec![], true));
    let last = write(&spelling::report(vec![], false));
    for turn in 1..=LAST_TURN {
        let envelope = Envelope { opcode: REPORT, exchange: 1, turn };
        script.push_str(&format!("panel{}\n", maker::hex(&seal(envelope, &more))));
    }
    let envelope = Envelope { opcode: REPORT, exchange: 1, turn: LAST_TURN };
    script.push_str(&format!("resend\npanel{}\noutcome\n", maker::hex(&seal(envelope, &last))));
    script
}
