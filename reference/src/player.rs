//! Plays a script's lines on a sign and a panel (docs/SCRIPTS.md).

use crate::acl::Entry;
use crate::answer::{Answer, BAD_SCHEMA};
use crate::cache::{Cache, Outcome};
use crate::limits::MESSAGE;
use crate::schema::Schema;
use crate::script::{self, Line};
use crate::server::Server;
use crate::tlv::{write, Element};

/// The two ends that `start` makes.
pub struct Ends {
    pub server: Server,
    pub cache: Cache,
    table: Vec<Entry>,
    subject: u64,
    /// The newest message that the panel has answered with, for `forward`.
    pub from_cache: Option<Vec<u8>>,
    /// The newest reply of the sign, for `back`.
    pub from_server: Option<Vec<u8>>,
}

pub struct Player {
    schema: Schema,
    table: Vec<Entry>,
    room: u64,
    ends: Option<Ends>,
}

/// A number and bytes, as they are printed.
pub type Printed = (u8, Vec<u8>);

impl Default for Player {
    fn default() -> Player {
        Player { schema: Schema::default(), table: Vec::new(), room: MESSAGE as u64, ends: None }
    }
}

impl Player {
    pub fn ends(&self) -> Option<&Ends> {
        self.ends.as_ref()
    }

    /// Plays one line: its printed answer, if the line has one, or why the run stops here.
    pub fn play(&mut self, line: &[u8]) -> Result<Option<String>, String> {
        let Some(line) = script::parse(line)? else { return Ok(None) };
        Ok(self.perform(line)?.map(|(number, bytes)| print(number, &bytes)))
    }

    pub fn perform(&mut self, line: Line) -> Result<Option<Printed>, String> {
        match line {
            Line::Subject(subject) => self.schema.subject = subject,
            Line::Cluster(cluster) => self.schema.clusters.push(cluster),
            Line::Attribute(attribute) => self.schema.attributes.push(attribute),
            Line::Access(entry) => self.table.push(entry),
            Line::Start => return Ok(Some((self.start(), Vec::new()))),
            other => {
                let ends = self.ends.as_mut().ok_or("there is no sign")?;
                if let Line::Buffer(room) = other {
                    self.room = room;
                    return Ok(None);
                }
                let room = usize::try_from(self.room).unwrap_or(usize::MAX);
                return ends.perform(other, room);
            }
        }
        Ok(None)
    }

    /// A second `start` makes both ends anew of all that was set up so far.
    fn start(&mut self) -> u8 {
        let made = Server::start(self.schema.clone());
        self.ends = made.map(|server| Ends {
            server,
            cache: Cache::default(),
            table: self.table.clone(),
            subject: self.schema.subject,
            from_cache: None,
            from_server: None,
        });
        if self.ends.is_some() {
            0
        } else {
            BAD_SCHEMA
        }
    }
}

impl Ends {
    fn perform(&mut self, line: Line, room: usize) -> Result<Option<Printed>, String> {
        Ok(Some(match line {
            Line::Sign(subject, message) => self.sign(subject, &message, room),
            Line::Forward => {
                let message = self.from_cache.clone().ok_or("the panel has sent nothing yet")?;
                self.sign(self.subject, &message, room)
            }
            Line::Panel(message) => {
                let answer = self.cache.receive(&message, room);
                self.panel(answer)
            }
            Line::Back => {
                let message = self.from_server.clone().ok_or("the sign has sent nothing yet")?;
                let answer = self.cache.receive(&message, room);
                self.panel(answer)
            }
            Line::Read => {
                let answer = self.cache.begin_read(room);
                self.panel(answer)
            }
            Line::Write(path, version, value) => {
                let answer = self.cache.begin_write(path, version, &value, room);
                self.panel(answer)
            }
            Line::Resend => {
                let answer = self.cache.resend(room);
                self.panel(answer)
            }
            other => return self.ask(other),
        }))
    }

    /// The lines that send nothing.
    fn ask(&mut self, line: Line) -> Result<Option<Printed>, String> {
        Ok(Some(match line {
            Line::Change(path, value) => (self.server.change(&path, value), Vec::new()),
            Line::Whole(place) => match self.cache.coherent(place) {
                Some(version) => (0, version.to_be_bytes().to_vec()),
                None => (1, Vec::new()),
            },
            Line::Entry(path) => match self.cache.entry(&path) {
                Some((version, value)) => {
                    let mut bytes = version.to_be_bytes().to_vec();
                    bytes.extend(write(&Element::anonymous(value.body())));
                    (0, bytes)
                }
                None => (1, Vec::new()),
            },
            Line::Outcome => outcome(self.cache.outcome()),
            Line::Unknown => match self.cache.unknown() {
                Some(exchange) => (0, exchange.to_be_bytes()[3..].to_vec()),
                None => (1, Vec::new()),
            },
            Line::Used(number) => {
                self.cache.use_up_to(number);
                return Ok(None);
            }
            other => return Err(format!("nothing to do for {other:?}")),
        }))
    }

    fn sign(&mut self, subject: u64, message: &[u8], room: usize) -> Printed {
        let answer = self.server.receive(&self.table, subject, message, room);
        if let Answer::Done(reply) = &answer {
            self.from_server = Some(reply.clone());
        }
        (answer.number(), answer.bytes().to_vec())
    }

    fn panel(&mut self, answer: Answer) -> Printed {
        if let Answer::Done(message) = &answer {
            self.from_cache = Some(message.clone());
        }
        (answer.number(), answer.bytes().to_vec())
    }
}

fn outcome(outcome: Outcome) -> Printed {
    match outcome {
        Outcome::NoneYet => (1, vec![]),
        Outcome::Open => (1, vec![0]),
        Outcome::LastPart => (0, vec![]),
        Outcome::Status(status) => (0, vec![status]),
    }
}

/// The number in decimal, then for each byte a space and two capital hex digits.
fn print(number: u8, bytes: &[u8]) -> String {
    let mut line = number.to_string();
    for byte in bytes {
        line.push_str(&format!(" {byte:02X}"));
    }
    line
}

/// Plays a whole script: the answers, and the line that could not be read, if there was one.
pub fn run(script: &[u8]) -> (String, Option<String>) {
    let mut player = Player::default();
    let mut answers = String::new();
    for (index, line) in script.split(|byte| *byte == b'\n').enumerate() {
        match player.play(line) {
            Ok(Some(answer)) => {
                answers.push_str(&answer);
                answers.push('\n');
            }
            Ok(None) => {}
            Err(wrong) => return (answers, Some(format!("line {}: {wrong}", index + 1))),
        }
    }
    (answers, None)
}
