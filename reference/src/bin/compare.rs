//! `compare PROVED SEEDS FIRST SCRIPT..`: the program PROVED beside this one. Plays each kept
//! script, the read that goes on to its last turn, and of SEEDS seeds from FIRST on the script and
//! a hostile one through both. They must print the same and stop at the same line, and where answers are kept
//! beside a script, these. Stops at the first line that differs and names the script or the seed.

use std::fs::{self, File};
use std::path::{Path, PathBuf};
use std::process::{Command, ExitCode, Stdio};

use reference::generate::{self, hostile::hostile};
use reference::player::run;

/// After so many seeds it says how far it is.
const STRIDE: u64 = 10_000;

/// What a program printed, and the line at which it stopped, if it did: `line N`.
#[derive(PartialEq)]
struct Played {
    answers: String,
    stopped: Option<String>,
}

/// The words before the reason, which each program words its own way.
fn line_named(wrong: &str) -> String {
    wrong.split(':').next().unwrap_or_default().to_string()
}

fn second(script: &[u8]) -> Played {
    let (answers, wrong) = run(script);
    Played { answers, stopped: wrong.map(|wrong| line_named(&wrong)) }
}

/// The first line in which two outputs differ.
fn first_difference(one: &str, other: &str) -> String {
    let (mut ones, mut others) = (one.lines(), other.lines());
    let mut number = 0;
    loop {
        number += 1;
        let (a, b) = (ones.next().unwrap_or("(no line)"), others.next().unwrap_or("(no line)"));
        if a != b || number > one.lines().count() {
            return format!("answer {number}:\n  {a:.300}\n  {b:.300}");
        }
    }
}

struct Comparison {
    proved: PathBuf,
    /// Where a script stands while the proved program reads it.
    script: PathBuf,
}

impl Comparison {
    fn proved(&self, script: &[u8]) -> Result<Played, String> {
        let failed = |error: std::io::Error| format!("{}: {error}", self.proved.display());
        fs::write(&self.script, script).map_err(failed)?;
        let output = Command::new(&self.proved)
            .stdin(Stdio::from(File::open(&self.script).map_err(failed)?))
            .output()
            .map_err(failed)?;
        let wrong = String::from_utf8_lossy(&output.stderr).to_string();
        Ok(Played {
            answers: String::from_utf8_lossy(&output.stdout).to_string(),
            stopped: if wrong.is_empty() { None } else { Some(line_named(&wrong)) },
        })
    }

    fn hold(&self, name: &str, script: &[u8], kept: Option<&str>) -> Result<(), String> {
        let (one, two) = (self.proved(script)?, second(script));
        if one.answers != two.answers {
            let where_ = first_difference(&one.answers, &two.answers);
            return Err(format!("{name}: the proved program, then the second one, {where_}"));
        }
        if one.stopped != two.stopped {
            return Err(format!("{name} stops at {:?} and {:?}", one.stopped, two.stopped));
        }
        match kept {
            Some(kept) if kept != one.answers => Err(format!(
                "{name}: both programs, then what is kept, {}",
                first_difference(&one.answers, kept)
            )),
            _ => Ok(()),
        }
    }

    fn kept(&self, path: &Path) -> Result<(), String> {
        let script = fs::read(path).map_err(|error| format!("{}: {error}", path.display()))?;
        let answers = fs::read_to_string(path.with_extension("answers")).ok();
        self.hold(&path.display().to_string(), &script, answers.as_deref())
    }

    fn all(&self, seeds: u64, first: u64, scripts: &[PathBuf]) -> Result<(), String> {
        for path in scripts {
            self.kept(path)?;
        }
        self.hold("the read to its last turn", generate::turns().as_bytes(), None)?;
        for done in 0..seeds {
            if done > 0 && done % STRIDE == 0 {
                println!("compare: {done} seeds from {first} on so far");
            }
            let seed = first.wrapping_add(done);
            self.hold(&format!("seed {seed}"), generate::script(seed).text().as_bytes(), None)?;
            self.hold(&format!("hostile {seed}"), &hostile(seed), None)?;
        }
        Ok(())
    }
}

fn main() -> ExitCode {
    let words: Vec<String> = std::env::args().skip(1).collect();
    let (Some(proved), Some(Ok(seeds)), Some(Ok(first))) = (
        words.first(),
        words.get(1).map(|word| word.parse::<u64>()),
        words.get(2).map(|word| word.parse::<u64>()),
    ) else {
        eprintln!("usage: compare PROVED SEEDS FIRST SCRIPT..");
        return ExitCode::from(2);
    };
    let scripts: Vec<PathBuf> = words[3..].iter().map(PathBuf::from).collect();
    let script = std::env::temp_dir().join(format!("compare-{}.script", std::process::id()));
    let comparison = Comparison { proved: PathBuf::from(proved), script };
    let outcome = comparison.all(seeds, first, &scripts);
    let _ = fs::remove_file(&comparison.script);
    match outcome {
        Ok(()) => {
            let kept = scripts.len();
            println!("compare: {kept} scripts and {seeds} seeds from {first} on: both programs print the same");
            ExitCode::SUCCESS
        }
        Err(difference) => {
            eprintln!("compare: {difference}");
            ExitCode::from(1)
        }
    }
}
