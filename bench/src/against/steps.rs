//! What signs are given: the lines for the sign of generated scripts, as they are, and with damaged messages and further local changes.

use reference::envelope::{seal, Envelope, READ_REQUEST, STATUS_RESPONSE};
use reference::generate::maker::{hex, spell_path, spell_value};
use reference::generate::{self, values};
use reference::limits::LAST_EXCHANGE;
use reference::paths::Path;
use reference::player::Player;
use reference::rng::Rng;
use reference::schema::Schema;
use reference::script::{parse, Line};
use reference::spelling;
use reference::status::SUCCESS;
use reference::tlv::write;
use reference::value::{Kind, Value};

use crate::setup::{MESSAGE, OPEN};

/// A line of a script, and what it says.
#[derive(Clone)]
pub struct Step {
    pub text: String,
    pub line: Line,
}

impl Step {
    fn sign(subject: u64, message: Vec<u8>) -> Step {
        Step {
            text: format!("sign {subject}{}", hex(&message)),
            line: Line::Sign(subject, message),
        }
    }

    fn change(path: Path, value: Value) -> Step {
        let text = format!("change {} {}", spell_path(&path), spell_value(&value));
        Step { text, line: Line::Change(path, value) }
    }

    pub fn panel(message: Vec<u8>) -> Step {
        Step { text: format!("panel{}", hex(&message)), line: Line::Panel(message) }
    }

    pub fn is_answered(&self) -> bool {
        let setup = matches!(
            self.line,
            Line::Subject(_) | Line::Cluster(_) | Line::Attribute(_) | Line::Access(_)
        );
        !setup && !matches!(self.line, Line::Buffer(_) | Line::Used(_))
    }
}

/// A seed's steps; and if there is a sign at their end, its schema, and a whole read of it.
pub struct Script {
    steps: Vec<Step>,
    schema: Schema,
    ending: Vec<Step>,
}

impl Script {
    /// The lines for the sign of a seed's script, as far as the second program plays it; what the panel hands over is spelled out.
    pub fn of_seed(seed: u64) -> Script {
        let mut player = Player::default();
        let (mut subject, mut steps) = (0, Vec::new());
        for text in generate::script(seed).lines {
            let Ok(parsed) = parse(text.as_bytes()) else { break };
            let Some(line) = parsed else { continue };
            let newest = player.ends().and_then(|ends| ends.from_cache.clone());
            if player.perform(line.clone()).is_err() {
                break;
            }
            if let Line::Subject(number) = line {
                subject = number;
            }
            match line {
                Line::Forward => steps.extend(newest.map(|message| Step::sign(subject, message))),
                line if is_for_sign(&line) => steps.push(Step { text, line }),
                _ => {}
            }
        }
        let Some(ends) = player.ends() else {
            return Script { steps, schema: Schema::default(), ending: Vec::new() };
        };
        let schema = ends.server.holdings().schema().clone();
        Script { steps, ending: whole_read(subject, schema.attributes.len()), schema }
    }

    pub fn as_made(&self) -> Vec<Step> {
        self.steps.iter().chain(&self.ending).cloned().collect()
    }

    /// Most messages damaged in one place or two, and local changes between them. The read at the end is whole: it shows what all that led to.
    pub fn damaged(&self, rng: &mut Rng) -> Vec<Step> {
        let mut steps = Vec::new();
        for step in &self.steps {
            steps.push(match &step.line {
                Line::Sign(subject, message) if rng.chance(65) => {
                    Step::sign(*subject, hurt(message.clone(), rng))
                }
                _ => step.clone(),
            });
            if matches!(step.line, Line::Sign(..)) && rng.chance(30) {
                steps.push(change(&self.schema, rng));
            }
        }
        steps.extend_from_slice(&self.ending);
        steps
    }
}

fn is_for_sign(line: &Line) -> bool {
    let setup = matches!(
        line,
        Line::Subject(_) | Line::Cluster(_) | Line::Attribute(_) | Line::Access(_) | Line::Start
    );
    setup || matches!(line, Line::Buffer(_) | Line::Sign(..) | Line::Change(..))
}

/// A read of everything in the last exchange, and a success for each part that there may be.
fn whole_read(subject: u64, attributes: usize) -> Vec<Step> {
    let sealed = |opcode, turn, payload| {
        let envelope = Envelope { opcode, exchange: LAST_EXCHANGE, turn };
        Step::sign(subject, seal(envelope, &write(&payload)))
    };
    let paths = vec![spelling::open_path(None, None, None)];
    let read = sealed(READ_REQUEST, 0, spelling::read_request(paths, Vec::new()));
    let room = MESSAGE as u64;
    let mut steps = vec![Step { text: format!("buffer {room}"), line: Line::Buffer(room) }, read];
    // Four of the longest blocks have room in a part.
    for turn in 1..=attributes.div_ceil(4) {
        steps.push(sealed(STATUS_RESPONSE, turn as u16, spelling::status_response(SUCCESS)));
    }
    steps
}

/// A local change; more often than the generator makes them, null and the empty text at a text.
fn change(schema: &Schema, rng: &mut Rng) -> Step {
    let is_text = |one: &&reference::schema::Attribute| one.kind == Kind::Text && one.nullable;
    let texts: Vec<Path> = schema.attributes.iter().filter(is_text).map(|one| one.path).collect();
    if !texts.is_empty() && rng.chance(50) {
        let value = rng.pick(&[Value::Null, Value::Text(Vec::new())]).clone();
        return Step::change(texts[rng.below(texts.len().min(2))], value);
    }
    let (path, value) = values::path_and_value(rng, schema);
    Step::change(path, value)
}

/// A message cut, or a byte of it changed, put in or left out; seldom in the envelope, where it costs the rest of the exchange.
pub fn hurt(mut message: Vec<u8>, rng: &mut Rng) -> Vec<u8> {
    for _ in 0..rng.between(1, 2) {
        let from = if rng.chance(4) { 0 } else { 8 };
        if message.len() <= from {
            break;
        }
        let at = rng.between(from, message.len() - 1);
        match rng.below(6) {
            0 => message.truncate(at),
            1 => message[at] = rng.draw() as u8,
            2 => message[at] ^= 1 << rng.below(8),
            3 => drop(message.remove(at)),
            4 => message.insert(at, rng.draw() as u8),
            // What TLV is made of: containers, their end, and small tags.
            _ => message.insert(at, *rng.pick(&[0x15, 0x18, 0x36, 0x37, 0x24, 0x30, 0, 1, 2])),
        }
    }
    message
}

/// What the linked library can be given: one access entry, which it has itself.
pub fn for_library(steps: &[Step]) -> Vec<Step> {
    let open = Step { text: "access 4 * * *".to_string(), line: Line::Access(OPEN) };
    let can = |step: &&Step| !matches!(step.line, Line::Access(_));
    std::iter::once(open).chain(steps.iter().filter(can).cloned()).collect()
}
