//! `play`: a script on standard input, one line an answer on standard output.

use std::io::{self, BufRead, Write};
use std::process::ExitCode;

use reference::player::Player;

fn main() -> ExitCode {
    match play() {
        Ok(None) => ExitCode::SUCCESS,
        Ok(Some(wrong)) => {
            eprintln!("{wrong}");
            ExitCode::from(1)
        }
        Err(error) => {
            eprintln!("{error}");
            ExitCode::from(2)
        }
    }
}

/// Line by line, so that a script may be of any length and may come slowly.
fn play() -> io::Result<Option<String>> {
    let mut input = io::stdin().lock();
    let mut output = io::stdout().lock();
    let mut player = Player::default();
    let mut line = Vec::new();
    let mut number = 0u64;
    while input.read_until(b'\n', &mut line)? > 0 {
        number += 1;
        if line.last() == Some(&b'\n') {
            line.pop();
        }
        match player.play(&line) {
            Ok(Some(answer)) => writeln!(output, "{answer}")?,
            Ok(None) => {}
            Err(wrong) => {
                output.flush()?;
                return Ok(Some(format!("line {number}: {wrong}")));
            }
        }
        line.clear();
    }
    output.flush()?;
    Ok(None)
}
