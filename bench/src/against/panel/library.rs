//! The linked library beside the panels in ordinary Rust: each call of a script, and after it all that is held and how the newest request stands.

use std::collections::BTreeMap;

use reference::paths::{ClusterPath, Path};
use reference::player::Printed;
use reference::script::Line;
use reference::value::Value;

use super::play::{room_of, sent};
use crate::against::steps::Step;
use crate::called::CalledPanel;
use crate::ordinary_panel::{Checked, Ordinary, Unchecked};
use crate::panel::{Panel, STAGE, STATUS, UNKNOWN};
use crate::plain::Stage;
use crate::setup::MESSAGE;

/// Holds the calls of a script, and gives the panel at their end and what each call got.
pub fn hold(name: &str, steps: &[Step]) -> (Panel, Vec<Printed>) {
    let (mut ours, mut checked, mut unchecked) =
        (Panel::fresh(), Checked::fresh(), Unchecked::fresh());
    let (mut room, mut answers) = (MESSAGE, Vec::new());
    for step in steps {
        match &step.line {
            Line::Start => {
                ours.restart();
                assert_eq!(ours.held, Panel::fresh().held, "{name}: a fresh panel");
                (checked, unchecked) = (Checked::fresh(), Unchecked::fresh());
            }
            Line::Buffer(length) => room = room_of(*length),
            Line::Used(number) => {
                ours.use_up_to(*number);
                checked.use_up_to(*number);
                unchecked.use_up_to(*number);
            }
            line if is_call(line) => {
                let name = format!("{name}, {}", step.text);
                let before = ours.clone();
                let answer = sent(&mut ours, line, room);
                let refused = answer.0 > 1;
                assert!(!refused || ours == before, "{name}: what is refused leaves all as it was");
                assert_eq!(answer, sent(&mut checked, line, room), "{name}: checked Rust");
                assert_eq!(answer, sent(&mut unchecked, line, room), "{name}: plain Rust");
                same_held(&name, &ours, &checked);
                same_held(&name, &ours, &unchecked);
                answers.push(answer);
            }
            _ => {}
        }
    }
    (ours, answers)
}

pub fn is_call(line: &Line) -> bool {
    matches!(line, Line::Read | Line::Write(..) | Line::Resend | Line::Panel(_))
}

/// All entries, which clusters are whole at which version, and the newest request.
fn same_held<const CHECKED: bool>(name: &str, ours: &Panel, other: &Ordinary<CHECKED>) {
    let entries = ours.entries();
    assert_eq!(entries, other.entries(), "{name}: the entries");
    for (place, version) in whole(&entries, ours.primed()) {
        let other = other.whole(place).expect("it keeps the rules");
        assert_eq!(version, other, "{name}: whether cluster {place:?} is whole");
    }
    let asked = &ours.held.asked;
    let stage = match other.stage().expect("it keeps the rules") {
        Stage::NoneYet => (0, 0),
        Stage::Reading => (1, 0),
        Stage::Writing(_) => (2, 0),
        Stage::LastPart => (3, 0),
        Stage::Ended(status) => (4, status.into()),
    };
    assert_eq!((asked[STAGE], asked[STATUS]), stage, "{name}: how the request stands");
    let unknown = other.unknown().expect("it keeps the rules");
    assert_eq!(asked[UNKNOWN], unknown.unwrap_or(0), "{name}: the newest unknown write");
}

/// The version of each cluster, where it is whole.
fn whole(
    entries: &BTreeMap<Path, (u32, Value)>,
    primed: bool,
) -> BTreeMap<ClusterPath, Option<u32>> {
    let mut clusters = BTreeMap::new();
    for (path, (version, _)) in entries {
        let shared = clusters.entry(path.place()).or_insert(primed.then_some(*version));
        *shared = shared.filter(|shared| shared == version);
    }
    clusters
}
