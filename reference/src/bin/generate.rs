//! `generate SEED`: prints the script of a seed. `generate hostile SEED` prints its hostile one, and
//! `generate turns` the one long script that takes a read's turns to their end.

use std::io::{self, Write};
use std::process::ExitCode;

use reference::generate::{self, hostile::hostile};

fn main() -> ExitCode {
    let words: Vec<String> = std::env::args().skip(1).collect();
    let seed = words.last().and_then(|word| word.parse().ok());
    let script = match (words.first().map(String::as_str), seed) {
        (Some("turns"), None) => generate::turns().into_bytes(),
        (Some("hostile"), Some(seed)) => hostile(seed),
        (Some(_), Some(seed)) => generate::script(seed).text().into_bytes(),
        _ => {
            eprintln!("usage: generate SEED | hostile SEED | turns; a seed has up to 64 bits");
            return ExitCode::from(2);
        }
    };
    match io::stdout().write_all(&script) {
        Ok(()) => ExitCode::SUCCESS,
        Err(_) => ExitCode::from(1),
    }
}
