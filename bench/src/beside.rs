//! Tables of times: our calls beside those of both forms in ordinary Rust.

use crate::clock::{medians, Run};

pub struct Line<'a> {
    pub name: &'a str,
    /// How many times of one are in a run.
    pub calls: f64,
    /// Ours, the two in ordinary Rust, and our test of refusal 2 alone, as often as ours makes it.
    pub runs: [Run<'a>; 4],
}

/// A line for each, all sampled in turn.
pub fn print(heading: &str, samples: usize, lines: Vec<Line>) {
    println!(
        "\n{heading:38} {:>9} {:>9} {:>9} {:>9} {:>7} {:>9}",
        "ours ns", "plain ns", "checked", "our test", "/plain", "/checked"
    );
    let names: Vec<(&str, f64)> = lines.iter().map(|line| (line.name, line.calls)).collect();
    let all = medians(samples, lines.into_iter().flat_map(|line| line.runs).collect());
    for ((name, calls), times) in names.into_iter().zip(all.chunks(4)) {
        let [ours, plain, checked, test] = times else { unreachable!("four runs a line") };
        println!(
            "{name:38} {:9.0} {:9.0} {:9.0} {:9.0} {:7.2} {:9.2}",
            ours / calls,
            plain / calls,
            checked / calls,
            test / calls,
            ours / plain,
            ours / checked
        );
    }
}
