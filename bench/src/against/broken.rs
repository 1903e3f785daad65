//! Refusal 2: signs with one thing broken, or almost, get it from the library and from the checked Rust alike; and the library gives it for exchange rows
//! with a number past its limit, and for no others.

use reference::generate::plan::{self, Size};
use reference::rng::Rng;
use reference::schema::Attribute;
use reference::status::SUCCESS;
use reference::value::{Kind, Value};

use crate::called::Called;
use crate::library::Sign;
use crate::messages::{read_all, status, whole_read};
use crate::ordinary::Checked;
use crate::setup::{Setup, ATTRIBUTES, CLUSTERS, MESSAGE, OPEN, TEXTS, TEXT_SIZE};

/// How many signs kept the rules and how many did not; of those that did, how many were then lent a row that did, and one that did not.
pub struct Judged {
    pub kept: u64,
    pub broken: u64,
    pub rows: u64,
    pub broken_rows: u64,
}

pub fn hold(first: u64, count: u64) -> Judged {
    let mut judged = Judged { kept: 0, broken: 0, rows: 0, broken_rows: 0 };
    for seed in first..first + count {
        let mut rng = Rng::new(seed);
        let size = *rng.pick(&[Size::Small, Size::Wordy, Size::Wordy, Size::Full]);
        let schema = plan::sound(&mut rng, size);
        let mut setup = Setup::new(schema, vec![OPEN]);
        if rng.chance(40) {
            setup.edit_all();
        }
        for _ in 0..rng.between(1, 2) {
            touch(&mut setup, &mut rng);
        }
        let (mut ours, mut checked) = (Sign::new(&setup), Checked::new(&setup));
        let right = ours.valid();
        assert_eq!(right, checked.valid(), "seed {seed}: whether the sign keeps the rules");
        let (mut a, mut b) = ([7; MESSAGE], [7; MESSAGE]);
        let last = ours.run(&whole_read(1), &mut a);
        assert_eq!(last, checked.run(&whole_read(1), &mut b), "seed {seed}: a read");
        assert_eq!(a, b, "seed {seed}: the reply to a read");
        assert_eq!(right, last.number != 2, "seed {seed}: 2 exactly if the rules are broken");
        if let Some(Attribute { path, first, .. }) = setup.schema.attributes.last() {
            for value in [Value::Null, first.clone()] {
                let status = ours.change(path, &value);
                assert_eq!(status, checked.change(path, &value), "seed {seed}: a change");
                assert_eq!(right, status != 2, "seed {seed}: 2 at a change too");
            }
        }
        *(if right { &mut judged.kept } else { &mut judged.broken }) += 1;
        if right {
            let kept = touch_row(&mut ours, &mut rng);
            hold_row(&mut ours, kept, setup.schema.subject, seed);
            *(if kept { &mut judged.rows } else { &mut judged.broken_rows }) += 1;
        }
    }
    judged
}

/// The highest exchange, turn, mark that more was promised, mark that it is closed, count of paths, place among them and in the schema, length of a reply, phase, and
/// how much of the place was sent.
const HIGHEST: [u64; 10] = [(1 << 40) - 1, 65_535, 1, 1, 16, 16, 256, MESSAGE as u64, 0, 0];

/// Any paths and filters; of how the exchange stands each word in its limits, or seldom past them, and as a rule together such as a sign leaves them. Whether
/// all of them keep the rules.
fn touch_row(ours: &mut Sign, rng: &mut Rng) -> bool {
    let (request, standing) = ours.row();
    for word in request {
        *word = *rng.pick(&[0, 1, 0x0500, 1 << 32, u64::MAX]);
    }
    for (word, highest) in standing.iter_mut().zip(HIGHEST) {
        *word = (*rng.pick(&[0, 1, 1, 7, 8, highest])).min(highest);
    }
    if rng.chance(80) {
        let [last, turn, next, closed, asked, path, _, len, ..] = standing else {
            unreachable!("ten words")
        };
        *path = (*path).min(*asked);
        if *last == 0 {
            (*turn, *next, *closed, *len) = (0, 0, 0, 0);
        } else {
            *turn = (*turn).max(1);
            *len = if *len < 8 { 0 } else { *len };
        }
    }
    for (word, highest) in standing.iter_mut().zip(HIGHEST) {
        if rng.chance(4) {
            *word = *rng.pick(&[highest + 1, highest + (1 << 32), u64::MAX]);
        }
    }
    row_kept(standing)
}

/// Each word in its limits, the place one of the request's, an envelope in the kept reply, and a reply exactly if there is an exchange.
fn row_kept(standing: &[u64]) -> bool {
    let [last, turn, next, closed, asked, path, _, len, ..] = *standing else {
        unreachable!("ten words")
    };
    let within = standing.iter().zip(HIGHEST).all(|(word, highest)| *word <= highest);
    let served = match last {
        0 => [turn, next, closed, len] == [0; 4],
        _ => turn > 0,
    };
    within && path <= asked && !(1..8).contains(&len) && served
}

/// 2 for every call exactly if the row breaks the rules.
fn hold_row(ours: &mut Sign, kept: bool, subject: u64, seed: u64) {
    for message in [status(1, SUCCESS), read_all()] {
        let number = ours.receive(subject, &message, &mut [0; MESSAGE]).number;
        assert_eq!(kept, number != 2, "seed {seed}: 2 exactly if the row breaks the rules");
    }
}

fn touch(setup: &mut Setup, rng: &mut Rng) {
    if rng.chance(60) {
        touch_held(setup, rng);
    } else {
        touch_schema(setup, rng);
    }
}

/// A value, a mark, or a byte or the length of a page.
fn touch_held(setup: &mut Setup, rng: &mut Rng) {
    let count = setup.schema.attributes.len().clamp(1, ATTRIBUTES);
    let i = rng.below(count);
    let byte = *rng.pick(&[b'x', 0x80, 0xC3, 0xA9, 0xE2, 0xF0, 0xFF]);
    // A text whose mark is touched: one that the page of edits has room for.
    let rank = rng.below((setup.edits.len() / TEXT_SIZE).clamp(1, TEXTS));
    match rng.below(10) {
        0 => {
            setup.words[i] = *rng.pick(&[0, 1, 2, 7, 8, 199, 200, 201, 256, 257, 1 << 32, u64::MAX])
        }
        1 => setup.words[i] = setup.words[i].wrapping_add(*rng.pick(&[1, u64::MAX])),
        2 => setup.nulls[i] = true,
        3 => (setup.nulls[i], setup.words[i]) = (true, 0),
        4 => setup.texts[rank] = *rng.pick(&[0, 1, 2, 3, 200, 201, 202, u16::MAX]),
        9 => setup.texts[rank] = setup.texts[rank].wrapping_add(*rng.pick(&[1, u16::MAX])),
        5 if !setup.edits.is_empty() => {
            let at = rng.below(setup.edits.len());
            setup.edits[at] = byte;
        }
        6 if !setup.defaults.is_empty() => {
            let at = rng.below(setup.defaults.len());
            setup.defaults[at] = byte;
        }
        7 => setup.edits.resize(setup.edits.len() + 1 - 2 * rng.below(2).min(setup.edits.len()), 0),
        _ => drop(setup.defaults.pop()),
    }
}

/// Order, counts, privileges, limits and first values.
fn touch_schema(setup: &mut Setup, rng: &mut Rng) {
    let schema = &mut setup.schema;
    if schema.attributes.is_empty() || schema.clusters.is_empty() {
        return;
    }
    let i = rng.below(schema.attributes.len());
    let k = rng.below(schema.clusters.len());
    match rng.below(9) {
        0 => schema.attributes.swap(i, i / 2),
        1 => schema.clusters.swap(k, k / 2),
        2 => drop(schema.clusters.remove(k)),
        3 => schema.clusters[k].place.0 = schema.clusters[k].place.0.wrapping_add(1),
        4 => schema.attributes[i].path.attribute = *rng.pick(&[0, 1, 2, 256, u32::MAX]),
        5 => schema.attributes[i].read = *rng.pick(&[None, Some(0), Some(4), Some(5), Some(255)]),
        6 => schema.attributes[i].write = *rng.pick(&[None, Some(0), Some(4), Some(5), Some(255)]),
        7 => {
            let (clusters, attributes) = (schema.clusters.clone(), schema.attributes.clone());
            schema.clusters.extend(clusters.into_iter().cycle().take(CLUSTERS));
            schema.attributes.extend(attributes.into_iter().cycle().take(ATTRIBUTES));
        }
        _ => touch_limits(&mut schema.attributes[i], rng),
    }
}

fn touch_limits(attribute: &mut Attribute, rng: &mut Rng) {
    let number = *rng.pick(&[0, 1, 8, 255, 257, 1 << 31, u32::MAX.into(), 1 << 63, u64::MAX]);
    // Infinities, NaN, the greatest float, and zeros of both signs.
    let floats = [0x7F80_0000, 0xFF80_0000, 0x7FC0_0000, 0x7F7F_FFFF, 0, 0x8000_0000];
    let (bits, which) = (*rng.pick(&floats), rng.below(3));
    match (&mut attribute.kind, &mut attribute.first) {
        (Kind::Unsigned { lowest, highest }, Value::Unsigned(first)) => {
            *[lowest, highest, first][which] = number;
        }
        (Kind::Signed { lowest, highest }, Value::Signed(first)) => {
            *[lowest, highest, first][which] = number as i64;
        }
        (Kind::Float { lowest, highest }, Value::Float(first)) => {
            *[lowest, highest, first][which] = bits;
        }
        (Kind::Text, Value::Text(first)) => first.resize(rng.between(0, TEXT_SIZE + 1), b'x'),
        _ => attribute.nullable = !attribute.nullable,
    }
}
