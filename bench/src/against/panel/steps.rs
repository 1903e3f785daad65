//! What panels are given: the lines for the panel of generated scripts, as they are, and with damaged messages between them; then what is held is asked for.

use reference::generate;
use reference::generate::maker::spell_path;
use reference::limits::DEPTH;
use reference::player::Player;
use reference::rng::Rng;
use reference::script::{parse, Line};
use reference::tlv::{read, write, Body, Element, Tag};

use crate::against::steps::{hurt, Step};
use crate::setup::MESSAGE;

/// The lines for the panel of a seed's script, as far as the second program plays it; what the sign hands over is spelled out.
pub fn of_seed(seed: u64) -> Vec<Step> {
    let (mut player, mut steps) = (Player::default(), Vec::new());
    for text in generate::script(seed).lines {
        let Ok(parsed) = parse(text.as_bytes()) else { break };
        let Some(line) = parsed else { continue };
        let newest = player.ends().and_then(|ends| ends.from_server.clone());
        if player.perform(line.clone()).is_err() {
            break;
        }
        match line {
            Line::Back => steps.extend(newest.map(Step::panel)),
            // A start that makes no sign makes no panel.
            Line::Start if player.ends().is_none() => {}
            line if is_for_panel(&line) => steps.push(Step { text, line }),
            _ => {}
        }
    }
    steps
}

fn is_for_panel(line: &Line) -> bool {
    let asks = matches!(line, Line::Whole(_) | Line::Entry(_) | Line::Outcome | Line::Unknown);
    let begins = matches!(line, Line::Read | Line::Write(..) | Line::Resend);
    let other = matches!(line, Line::Start | Line::Buffer(_) | Line::Used(_) | Line::Panel(_));
    asks || begins || other
}

/// One read whose parts go on to the last turn.
pub fn to_last_turn() -> Vec<Step> {
    let script = generate::turns();
    let lines = script.lines().filter_map(|text| {
        let line = parse(text.as_bytes()).expect("it is a line")?;
        is_for_panel(&line).then(|| Step { text: text.to_string(), line })
    });
    lines.collect()
}

/// Up to three damaged messages before each, and some messages left out.
pub fn damaged(steps: &[Step], rng: &mut Rng) -> Vec<Step> {
    let mut all = Vec::new();
    for step in steps {
        if let Line::Panel(message) = &step.line {
            for _ in 0..rng.below(3) {
                all.push(Step::panel(hurt(message.clone(), rng)));
            }
            all.extend(with_member(message, rng).map(Step::panel));
            if rng.chance(10) {
                continue;
            }
        }
        all.push(step.clone());
    }
    all
}

/// A message with one member more somewhere in it.
fn with_member(message: &[u8], rng: &mut Rng) -> Option<Vec<u8>> {
    let (head, payload) = message.split_first_chunk::<8>()?;
    let mut payload = read(payload)?;
    add_member(&mut payload, 1, rng);
    Some([&head[..], &write(&payload)].concat())
}

fn add_member(container: &mut Element, depth: usize, rng: &mut Rng) {
    let (Body::Structure(members) | Body::Array(members) | Body::List(members)) =
        &mut container.body
    else {
        return;
    };
    let mut inner: Vec<&mut Element> = members.iter_mut().filter(|one| is_container(one)).collect();
    if !inner.is_empty() && rng.chance(70) {
        let chosen = rng.below(inner.len());
        return add_member(inner[chosen], depth + 1, rng);
    }
    members.push(match members.last() {
        // Of a list of blocks one twice.
        Some(block @ Element { tag: Tag::Anonymous, .. }) => block.clone(),
        _ if rng.chance(50) => Element::context(0x30, deep(depth, rng)),
        _ => Element::context(rng.below(6) as u8, any_field(rng)),
    });
}

/// Containers as deep as they may stand, or one deeper.
fn deep(depth: usize, rng: &mut Rng) -> Body {
    let mut deep = Body::Null;
    for _ in depth..DEPTH + rng.below(2) {
        deep = match rng.below(3) {
            0 => Body::Array(vec![Element::anonymous(deep)]),
            1 => Body::List(vec![Element::anonymous(deep)]),
            _ => Body::Structure(vec![Element::context(1, deep)]),
        };
    }
    deep
}

/// What a listed field may hold, or not.
fn any_field(rng: &mut Rng) -> Body {
    let numbers = [0, 255, 256, 1 << 16, u64::from(u32::MAX), 1 << 32].map(Body::Unsigned);
    let others = [Body::Null, Body::Bool(false), Body::Bool(true), Body::Structure(Vec::new())];
    rng.pick(&[&numbers[..], &others[..]].concat()).clone()
}

fn is_container(element: &Element) -> bool {
    matches!(element.body, Body::Structure(_) | Body::Array(_) | Body::List(_))
}

/// The same, and then each entry and each cluster that the second program holds, how the newest request stands, and one more read: its filters are what is whole.
pub fn ending(mut steps: Vec<Step>) -> Vec<Step> {
    let mut player = Player::default();
    for step in &steps {
        player.perform(step.line.clone()).expect("a line for the panel is played");
    }
    let Some(ends) = player.ends() else { return steps };
    let mut lines = vec!["outcome".to_string(), "unknown".to_string()];
    lines.extend(ends.cache.entries().keys().map(|path| format!("entry {}", spell_path(path))));
    for (endpoint, cluster) in ends.cache.clusters() {
        lines.push(format!("whole {endpoint} {cluster}"));
    }
    lines.extend([format!("buffer {MESSAGE}"), "read".to_string()]);
    for text in lines {
        let line = parse(text.as_bytes()).expect("it is a line").expect("that says something");
        steps.push(Step { text, line });
    }
    steps
}
