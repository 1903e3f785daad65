//! The panel in ordinary Rust held to the proved one: over generated scripts for the panel, as they are and with damaged messages, and over panels that break
//! the rules of refusal 2.

mod broken;
mod library;
mod play;
mod steps;

use reference::player::Printed;
use reference::rng::Rng;
use reference::script::Line;

use self::broken::Judged;
use self::play::play;
use super::play::proved;
use super::reached::Group;
use super::same;
use super::steps::Step;

/// How many panels are made of what a script leaves.
const TOUCHED: usize = 10;

/// How many answers there were of each number.
struct Reached {
    begun: Group,
    messages: Group,
    asked: Group,
}

impl Reached {
    fn new() -> Reached {
        Reached {
            begun: Group::new("begun or sent again", false, &[0, 3, 8, 9, 10]),
            messages: Group::new("messages", false, &[0, 1, 3, 4, 5, 6, 7]),
            asked: Group::new("asked", false, &[0, 1]),
        }
    }

    fn add(&mut self, steps: &[Step], answers: &[Printed]) {
        let lines = steps.iter().filter(|step| step.is_answered());
        for (step, (number, _)) in lines.zip(answers) {
            match step.line {
                Line::Start => {}
                Line::Panel(_) => self.messages.count(*number),
                Line::Read | Line::Write(..) | Line::Resend => self.begun.count(*number),
                _ => self.asked.count(*number),
            }
        }
    }
}

/// Holds the scripts of so many seeds from one on, and prints what they reached. Stops at the first difference.
pub fn hold(seeds: u64, first: u64) {
    let (mut player, mut linked) = (Reached::new(), Reached::new());
    let mut judged = Judged::default();
    for seed in first..first + seeds {
        let mut rng = Rng::new(seed);
        let made = steps::of_seed(seed);
        let damaged = steps::damaged(&made, &mut rng);
        for (name, steps) in [("as made", made), ("damaged", damaged)] {
            let name = format!("seed {seed}, {name}");
            let steps = steps::ending(steps);
            let answers = hold_rust(&name, &steps);
            player.add(&steps, &answers);
            let name = format!("{name}, the library");
            let (panel, answers) = library::hold(&name, &steps);
            let calls: Vec<Step> =
                steps.into_iter().filter(|step| library::is_call(&step.line)).collect();
            linked.add(&calls, &answers);
            for k in 0..TOUCHED {
                broken::hold(&format!("{name}, panel {k}"), &panel, &mut rng, &mut judged);
            }
        }
    }
    let steps = steps::to_last_turn();
    hold_rust("to the last turn", &steps);
    library::hold("to the last turn, the library", &steps);
    println!("The proved player and the Rust panels answer alike, {seeds} seeds from {first}:");
    [player.begun, player.messages, player.asked].iter().for_each(Group::print);
    println!("The linked library and the Rust panels answer alike:");
    [linked.begun, linked.messages].iter().for_each(Group::print);
    println!(
        "Refusal 2: {} panels keep the rules, {} break one; the library and the checked Rust agree",
        judged.kept, judged.broken
    );
    println!(
        "Refusal 2: {} newest requests keep the rules, {} break one",
        judged.requests, judged.broken_requests
    );
}

/// Both Rust panels answer what the proved player does, which is given back.
fn hold_rust(name: &str, steps: &[Step]) -> Vec<Printed> {
    let answers = proved(steps);
    same(&format!("{name}, checked Rust"), steps, &answers, &play::<true>(steps));
    same(&format!("{name}, plain Rust"), steps, &answers, &play::<false>(steps));
    answers
}
