//! Steps played on a sign: what each that has an answer gets.

use std::path::Path as File;
use std::process::{Command, Stdio};

use reference::acl::Entry;
use reference::answer::BAD_SCHEMA;
use reference::player::Printed;
use reference::schema::Schema;
use reference::script::Line;

use super::steps::Step;
use crate::called::{Called, Last};
use crate::setup::{Setup, MESSAGE};

/// The answers of a sign, in the order of the steps that have one.
pub fn play<S: Called>(steps: &[Step]) -> Vec<Printed> {
    let (mut schema, mut table) = (Schema::default(), Vec::<Entry>::new());
    let (mut room, mut sign, mut answers) = (MESSAGE, None, Vec::new());
    for step in steps {
        match &step.line {
            Line::Subject(subject) => schema.subject = *subject,
            Line::Cluster(cluster) => schema.clusters.push(cluster.clone()),
            Line::Attribute(attribute) => schema.attributes.push(attribute.clone()),
            Line::Access(entry) => table.push(entry.clone()),
            Line::Buffer(length) => {
                room = usize::try_from(*length).map_or(MESSAGE, |n| n.min(2 * MESSAGE))
            }
            Line::Start => {
                sign = S::start(&Setup::new(schema.clone(), table.clone()));
                answers.push((if sign.is_some() { 0 } else { BAD_SCHEMA }, Vec::new()));
            }
            Line::Sign(subject, message) => {
                let sign = sign.as_mut().expect("a sign was started");
                answers.push(received(sign, *subject, message, room));
            }
            Line::Change(path, value) => {
                let sign = sign.as_mut().expect("a sign was started");
                answers.push((sign.change(path, value), Vec::new()));
            }
            _ => unreachable!("only lines for the sign are played"),
        }
    }
    answers
}

/// A reply, and that nothing else was written.
fn received<S: Called>(sign: &mut S, subject: u64, message: &[u8], room: usize) -> Printed {
    const UNWRITTEN: u8 = 0xA5;
    let mut out = vec![UNWRITTEN; room];
    let Last { number, len } = sign.receive(subject, message, &mut out);
    assert!(
        out[len..].iter().all(|byte| *byte == UNWRITTEN),
        "the rest of the buffer is untouched"
    );
    out.truncate(len);
    (number, out)
}

/// The answers of the proved player, the program `play`.
pub fn proved(steps: &[Step]) -> Vec<Printed> {
    let program = concat!(env!("CARGO_MANIFEST_DIR"), "/../crates/play/out/play");
    assert!(File::new(program).exists(), "no {program}: rt run in crates/play makes it");
    let script: String = steps.iter().map(|step| format!("{}\n", step.text)).collect();
    let mut player = Command::new(program)
        .stdin(Stdio::piped())
        .stdout(Stdio::piped())
        .stderr(Stdio::piped())
        .spawn()
        .expect("the player runs");
    let mut input = player.stdin.take().expect("its input is ours");
    let output = std::thread::scope(|scope| {
        scope.spawn(move || std::io::Write::write_all(&mut input, script.as_bytes()));
        player.wait_with_output().expect("the player ends")
    });
    assert!(output.stderr.is_empty(), "{}", String::from_utf8_lossy(&output.stderr));
    String::from_utf8(output.stdout).expect("it prints text").lines().map(printed).collect()
}

fn printed(line: &str) -> Printed {
    let mut words = line.split(' ');
    let number =
        words.next().and_then(|word| word.parse().ok()).expect("a line begins with a number");
    let byte = |word| u8::from_str_radix(word, 16).expect("then bytes follow");
    (number, words.map(byte).collect())
}
