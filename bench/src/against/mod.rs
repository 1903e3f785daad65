//! The sign in ordinary Rust held to the proved one, byte for byte: over generated scripts for the sign, as they are and with damaged messages, and over
//! signs that break the rules of refusal 2.

mod broken;
pub mod panel;
mod play;
mod reached;
mod steps;

use reference::acl;
use reference::player::Printed;
use reference::rng::Rng;
use reference::script::Line;

use self::play::play;
pub use self::play::proved;
use self::reached::Reached;
use self::steps::Script;
pub use self::steps::Step;
use crate::library;
use crate::ordinary::{Checked, Unchecked};

/// Holds the scripts of so many seeds from one on, and prints what they reached. Stops at the first difference.
pub fn hold(seeds: u64, first: u64) {
    let (mut player, mut linked) = (Reached::new(), Reached::new());
    for seed in first..first + seeds {
        let script = Script::of_seed(seed);
        let damaged = script.damaged(&mut Rng::new(seed));
        for (name, steps) in [("as made", script.as_made()), ("damaged", damaged)] {
            let name = format!("seed {seed}, {name}");
            let answers = proved(&steps);
            hold_rust(&format!("{name}, the player"), &steps, &answers);
            player.add(&steps, &answers);
            let steps = steps::for_library(&steps);
            let answers = play::<library::Sign>(&steps);
            hold_rust(&format!("{name}, the library"), &steps, &answers);
            linked.add(&steps, &answers);
        }
    }
    println!("The proved player and the Rust signs answer alike, {seeds} seeds from {first}:");
    player.print();
    println!("The linked library and the Rust signs answer alike:");
    linked.print();
    let judged = broken::hold(20 * first, 20 * seeds);
    println!(
        "Refusal 2: {} signs keep the rules, {} break one; the library and the checked Rust agree",
        judged.kept, judged.broken
    );
    println!(
        "Refusal 2: {} exchange rows keep the rules, {} break one",
        judged.rows, judged.broken_rows
    );
}

/// Both Rust signs answer this. What tests nothing is not asked where the access table breaks the rules.
fn hold_rust(name: &str, steps: &[Step], answers: &[Printed]) {
    same(&format!("{name}, checked Rust"), steps, answers, &play::<Checked>(steps));
    let entries = steps.iter().filter_map(|step| match &step.line {
        Line::Access(entry) => Some(entry.clone()),
        _ => None,
    });
    if acl::sound(&entries.collect::<Vec<_>>()) {
        same(&format!("{name}, plain Rust"), steps, answers, &play::<Unchecked>(steps));
    }
}

fn same(name: &str, steps: &[Step], ours: &[Printed], other: &[Printed]) {
    assert_eq!(ours.len(), other.len(), "{name}: how many answers there are");
    let lines = steps.iter().filter(|step| step.is_answered());
    for (k, ((step, ours), other)) in lines.zip(ours).zip(other).enumerate() {
        assert_eq!(ours, other, "{name}: answer {k}, to {}", step.text);
    }
}
