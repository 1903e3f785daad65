//! Holds the program to the kept scripts, ours and the given ones.

use std::fs;
use std::path::{Path, PathBuf};

use reference::player::run;

/// Answers of the given scripts that the rules contradict: script, line of the answers, why.
const WRONG_GIVEN_ANSWERS: &[(&str, usize, &str)] = &[];

fn scripts_in(folder: &str) -> Vec<PathBuf> {
    let root = Path::new(env!("CARGO_MANIFEST_DIR")).join("../scripts").join(folder);
    let mut found: Vec<PathBuf> = fs::read_dir(root)
        .expect("the scripts' folder")
        .map(|entry| entry.expect("an entry").path())
        .filter(|path| path.extension().is_some_and(|end| end == "script"))
        .collect();
    found.sort();
    found
}

/// The first line that differs, if one does.
fn first_difference(name: &str, answers: &str, expected: &str) -> Option<String> {
    let (mut ours, mut theirs) = (answers.lines(), expected.lines());
    for number in 1.. {
        let (our, their) = (ours.next(), theirs.next());
        if our.is_none() && their.is_none() {
            return None;
        }
        let excused =
            WRONG_GIVEN_ANSWERS.iter().any(|(at, line, _)| *at == name && *line == number);
        if our != their && !excused {
            return Some(format!(
                "{name}, answer {number}:\n  played   {our:?}\n  expected {their:?}"
            ));
        }
    }
    None
}

fn hold(folder: &str, at_least: usize) {
    let scripts = scripts_in(folder);
    assert!(scripts.len() >= at_least, "only {} scripts in {folder:?}", scripts.len());
    let mut wrong = Vec::new();
    for path in &scripts {
        let name = path.file_stem().expect("a name").to_string_lossy().to_string();
        let expected = fs::read_to_string(path.with_extension("answers")).expect("its answers");
        let (answers, stopped) = run(&fs::read(path).expect("the script"));
        if let Some(reason) = stopped {
            wrong.push(format!("{name} stopped: {reason}"));
        }
        wrong.extend(first_difference(&name, &answers, &expected));
    }
    assert!(wrong.is_empty(), "{}", wrong.join("\n"));
}

#[test]
fn specimens_slips_rules_and_the_morning() {
    hold("", 28);
}

#[test]
fn given_scripts() {
    hold("given", 200);
}
