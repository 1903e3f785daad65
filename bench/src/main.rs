//! Holds the proved sign and the proved panel to ones in ordinary Rust, and times the proved libraries, called from Rust: the test of refusal 2 beside what it
//! guards, and the calls of both beside ordinary Rust. What is answered is asserted, how long it takes is not.

mod against;
mod beside;
mod broken;
mod called;
mod clock;
mod library;
mod messages;
mod ordinary;
mod ordinary_panel;
mod panel;
mod panel_stack;
mod panel_times;
mod plain;
mod questions;
mod refusal;
mod repeat;
mod setup;
mod sign_times;
mod signs;
mod stack;

/// How many generated scripts are held before anything is timed.
const SEEDS: u64 = 1000;

fn main() {
    let words: Vec<String> = std::env::args().skip(1).collect();
    let words: Vec<&str> = words.iter().map(String::as_str).collect();
    let number = |word: &str| word.parse::<u64>().expect("a number");
    match words[..] {
        [] => {
            broken::hold();
            against::hold(SEEDS, 1);
            against::panel::hold(SEEDS, 1);
            refusal::print();
            sign_times::reads();
            sign_times::singles();
            sign_times::growth();
            panel_times::reports();
            panel_times::growth();
            stack::print();
            panel_stack::print();
        }
        ["broken"] => broken::hold(),
        ["stack"] => {
            stack::print();
            panel_stack::print();
        }
        ["panel"] => {
            panel_times::reports();
            panel_times::growth();
        }
        ["against", seeds, first] => {
            against::hold(number(seeds), number(first));
            against::panel::hold(number(seeds), number(first));
        }
        [name, attributes, times] => {
            repeat::repeat(name, number(attributes) as usize, number(times) as usize)
        }
        _ => panic!("bench/README.md says what there is"),
    }
}
