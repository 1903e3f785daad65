//! Builds a script by playing it: each line is played as it is written, so that the next one can
//! go by what both ends hold, and old messages can be sent once more.

use std::collections::BTreeMap;

use crate::cache::Cache;
use crate::paths::Path;
use crate::player::{Player, Printed};
use crate::rng::Rng;
use crate::schema::Schema;
use crate::script;
use crate::server::Server;
use crate::value::Value;

pub struct Maker {
    pub rng: Rng,
    pub subject: u64,
    player: Player,
    lines: Vec<String>,
    /// Every message that the panel made, and every reply of the sign, oldest first.
    pub sent: Vec<Vec<u8>>,
    pub replies: Vec<Vec<u8>>,
    notes: BTreeMap<&'static str, u32>,
    stopped: bool,
}

impl Maker {
    pub fn new(seed: u64) -> Maker {
        Maker {
            rng: Rng::new(seed),
            subject: 0,
            player: Player::default(),
            lines: Vec::new(),
            sent: Vec::new(),
            replies: Vec::new(),
            notes: BTreeMap::new(),
            stopped: false,
        }
    }

    pub fn finish(self) -> (Vec<String>, BTreeMap<&'static str, u32>) {
        (self.lines, self.notes)
    }

    /// Counts a situation that has come about.
    pub fn note(&mut self, situation: &'static str) {
        *self.notes.entry(situation).or_default() += 1;
    }

    pub fn length(&self) -> usize {
        self.lines.len()
    }

    /// After a line that can't be read nothing more is played.
    pub fn stopped(&self) -> bool {
        self.stopped
    }

    pub fn running(&self) -> bool {
        !self.stopped && self.player.ends().is_some()
    }

    /// Writes a line and plays it. A line without an answer counts as answered by 1.
    pub fn say(&mut self, line: &str) -> Printed {
        let silence = (1, Vec::new());
        if self.stopped {
            return silence;
        }
        self.lines.push(line.to_string());
        let parsed = match script::parse(line.as_bytes()) {
            Ok(Some(parsed)) => parsed,
            Ok(None) => return silence,
            Err(_) => {
                self.stopped = true;
                return silence;
            }
        };
        match self.player.perform(parsed) {
            Ok(answer) => {
                let answer = answer.unwrap_or(silence);
                self.remember(line, &answer);
                answer
            }
            Err(_) => {
                self.stopped = true;
                silence
            }
        }
    }

    fn remember(&mut self, line: &str, answer: &Printed) {
        let word = line.split(' ').next().unwrap_or_default();
        match word {
            "start" => {
                self.sent.clear();
                self.replies.clear();
            }
            "sign" | "forward" if answer.0 == 0 => self.replies.push(answer.1.clone()),
            "read" | "write" | "resend" | "panel" | "back" if answer.0 == 0 => {
                self.sent.push(answer.1.clone());
            }
            _ => {}
        }
    }

    pub fn server(&self) -> &Server {
        &self.player.ends().expect("only asked while running").server
    }

    pub fn cache(&self) -> &Cache {
        &self.player.ends().expect("only asked while running").cache
    }

    pub fn schema(&self) -> Schema {
        self.server().holdings().schema().clone()
    }

    /// Whether `forward` or `back` would have something to hand over.
    pub fn can_forward(&self) -> bool {
        self.player.ends().is_some_and(|ends| ends.from_cache.is_some())
    }

    pub fn can_back(&self) -> bool {
        self.player.ends().is_some_and(|ends| ends.from_server.is_some())
    }

    pub fn sign(&mut self, message: &[u8]) -> Printed {
        let subject = self.subject;
        self.sign_as(subject, message)
    }

    pub fn sign_as(&mut self, subject: u64, message: &[u8]) -> Printed {
        self.say(&format!("sign {subject}{}", hex(message)))
    }

    pub fn panel(&mut self, message: &[u8]) -> Printed {
        self.say(&format!("panel{}", hex(message)))
    }

    pub fn change(&mut self, path: &Path, value: &Value) -> Printed {
        self.say(&format!("change {} {}", spell_path(path), spell_value(value)))
    }

    pub fn write(&mut self, path: &Path, version: Option<u32>, value: &Value) -> Printed {
        let version = version.map_or("-".to_string(), |number| number.to_string());
        self.say(&format!("write {} {version} {}", spell_path(path), spell_value(value)))
    }
}

/// A space and two capital digits for each byte.
pub fn hex(bytes: &[u8]) -> String {
    bytes.iter().map(|byte| format!(" {byte:02X}")).collect()
}

pub fn spell_path(path: &Path) -> String {
    format!("{} {} {}", path.endpoint, path.cluster, path.attribute)
}

pub fn spell_value(value: &Value) -> String {
    match value {
        Value::Null => "null".to_string(),
        Value::Bool(flag) => format!("bool {}", u8::from(*flag)),
        Value::Unsigned(number) => format!("unsigned {number}"),
        Value::Signed(number) => format!("signed {number}"),
        Value::Float(bits) => format!("float {bits:08X}"),
        Value::Text(bytes) => format!("text{}", hex(bytes)),
    }
}
