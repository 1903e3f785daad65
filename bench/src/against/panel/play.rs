//! Steps played on a panel in ordinary Rust: what each that has an answer gets.

use reference::player::Printed;
use reference::script::Line;
use reference::tlv::{write, Element};

use crate::against::steps::Step;
use crate::called::{CalledPanel, Last};
use crate::ordinary_panel::Ordinary;
use crate::plain::{Broken, Stage};
use crate::setup::MESSAGE;

const UNWRITTEN: u8 = 0xA5;

/// The answers of a panel, in the order of the steps that have one.
pub fn play<const CHECKED: bool>(steps: &[Step]) -> Vec<Printed> {
    let (mut panel, mut room) = (Ordinary::<CHECKED>::fresh(), MESSAGE);
    let mut answers = Vec::new();
    for step in steps {
        match &step.line {
            Line::Start => {
                panel = Ordinary::fresh();
                answers.push((0, Vec::new()));
            }
            Line::Buffer(length) => room = room_of(*length),
            Line::Used(number) => panel.use_up_to(*number),
            Line::Whole(_) | Line::Entry(_) | Line::Outcome | Line::Unknown => {
                answers.push(asked(&panel, &step.line).unwrap_or((2, Vec::new())))
            }
            line => answers.push(sent(&mut panel, line, room)),
        }
    }
    answers
}

/// The buffer that a script asks for.
pub fn room_of(length: u64) -> usize {
    usize::try_from(length).map_or(MESSAGE, |n| n.min(2 * MESSAGE))
}

/// A message that is made, and that nothing else was written.
pub fn sent<P: CalledPanel>(panel: &mut P, line: &Line, room: usize) -> Printed {
    let mut out = vec![UNWRITTEN; room];
    let Last { number, len } = match line {
        Line::Read => panel.begin_read(&mut out),
        Line::Write(path, version, value) => panel.begin_write(path, *version, value, &mut out),
        Line::Resend => panel.resend(&mut out),
        Line::Panel(message) => panel.receive(message, &mut out),
        _ => unreachable!("only lines for the panel are played"),
    };
    assert!(
        out[len..].iter().all(|byte| *byte == UNWRITTEN),
        "the rest of the buffer is untouched"
    );
    out.truncate(len);
    (number, out)
}

/// What is held, as the player prints it.
fn asked<const CHECKED: bool>(panel: &Ordinary<CHECKED>, line: &Line) -> Result<Printed, Broken> {
    let bytes = match line {
        Line::Whole(place) => panel.whole(*place)?.map(|version| version.to_be_bytes().to_vec()),
        Line::Entry(path) => panel.entry(path)?.map(|(version, value)| {
            [version.to_be_bytes().to_vec(), write(&Element::anonymous(value.body()))].concat()
        }),
        Line::Unknown => panel.unknown()?.map(|exchange| exchange.to_be_bytes()[3..].to_vec()),
        _ => {
            return Ok(match panel.stage()? {
                Stage::NoneYet => (1, vec![]),
                Stage::Reading | Stage::Writing(_) => (1, vec![0]),
                Stage::LastPart => (0, vec![]),
                Stage::Ended(status) => (0, vec![status]),
            })
        }
    };
    Ok(bytes.map_or((1, Vec::new()), |bytes| (0, bytes)))
}
