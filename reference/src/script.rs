//! The lines of a script (docs/SCRIPTS.md): words separated by single spaces.

use crate::acl::Entry;
use crate::limits::{LAST_EXCHANGE, SPELLED_MESSAGE};
use crate::paths::{ClusterPath, Path};
use crate::schema::{Attribute, Cluster};
use crate::value::{Kind, Value};

#[derive(Clone, Debug, PartialEq)]
pub enum Line {
    Subject(u64),
    Cluster(Cluster),
    Attribute(Attribute),
    Access(Entry),
    Start,
    Buffer(u64),
    Sign(u64, Vec<u8>),
    Change(Path, Value),
    Read,
    Resend,
    Write(Path, Option<u32>, Value),
    Panel(Vec<u8>),
    Forward,
    Back,
    Whole(ClusterPath),
    Entry(Path),
    Outcome,
    Unknown,
    Used(u64),
}

type Read<T> = Result<T, String>;

/// `None` for a line to skip: an empty one, or one that starts with `#`.
pub fn parse(line: &[u8]) -> Read<Option<Line>> {
    if line.is_empty() || line[0] == b'#' {
        return Ok(None);
    }
    let text = std::str::from_utf8(line).map_err(|_| "not text".to_string())?;
    let mut words = Words { rest: text.split(' ').collect(), at: 0 };
    let line = words.line()?;
    if words.at < words.rest.len() {
        return Err(format!("a word too many: {:?}", words.rest[words.at]));
    }
    Ok(Some(line))
}

struct Words<'a> {
    rest: Vec<&'a str>,
    at: usize,
}

impl<'a> Words<'a> {
    fn next(&mut self) -> Read<&'a str> {
        let word = self.rest.get(self.at).ok_or("a word is missing")?;
        self.at += 1;
        Ok(word)
    }

    fn line(&mut self) -> Read<Line> {
        Ok(match self.next()? {
            "subject" => Line::Subject(self.number(u64::MAX)?),
            "cluster" => Line::Cluster(self.cluster()?),
            "attribute" => Line::Attribute(self.attribute()?),
            "access" => Line::Access(self.access()?),
            "start" => Line::Start,
            "buffer" => Line::Buffer(self.number(u64::MAX)?),
            "sign" => Line::Sign(self.number(u64::MAX)?, self.message()?),
            "change" => Line::Change(self.path()?, self.value()?),
            "read" => Line::Read,
            "resend" => Line::Resend,
            "write" => Line::Write(self.path()?, self.version_or_none()?, self.value()?),
            "panel" => Line::Panel(self.message()?),
            "forward" => Line::Forward,
            "back" => Line::Back,
            "whole" => Line::Whole(self.place()?),
            "entry" => Line::Entry(self.path()?),
            "outcome" => Line::Outcome,
            "unknown" => Line::Unknown,
            "used" => Line::Used(self.number(LAST_EXCHANGE)?),
            other => return Err(format!("no line starts with {other:?}")),
        })
    }

    fn number(&mut self, highest: u64) -> Read<u64> {
        decimal(self.next()?, highest)
    }

    fn signed(&mut self) -> Read<i64> {
        let word = self.next()?;
        match word.strip_prefix('-') {
            None => Ok(decimal(word, i64::MAX as u64)? as i64),
            Some(digits) => Ok((decimal(digits, 1 << 63)? as i64).wrapping_neg()),
        }
    }

    fn place(&mut self) -> Read<ClusterPath> {
        Ok((self.number(u64::from(u16::MAX))? as u16, self.number(u64::from(u32::MAX))? as u32))
    }

    fn path(&mut self) -> Read<Path> {
        let (endpoint, cluster) = self.place()?;
        let attribute = self.number(u64::from(u32::MAX))? as u32;
        Ok(Path { endpoint, cluster, attribute })
    }

    /// A number, or `None` for the mark that stands for none or any.
    fn marked(&mut self, mark: &str, highest: u64) -> Read<Option<u64>> {
        match self.next()? {
            word if word == mark => Ok(None),
            word => decimal(word, highest).map(Some),
        }
    }

    fn version_or_none(&mut self) -> Read<Option<u32>> {
        Ok(self.marked("-", u64::from(u32::MAX))?.map(|number| number as u32))
    }

    fn cluster(&mut self) -> Read<Cluster> {
        Ok(Cluster { place: self.place()?, version: self.number(u64::from(u32::MAX))? as u32 })
    }

    fn access(&mut self) -> Read<Entry> {
        Ok(Entry {
            privilege: self.number(u64::from(u8::MAX))? as u8,
            subject: self.marked("*", u64::MAX)?,
            endpoint: self.marked("*", u64::from(u16::MAX))?.map(|number| number as u16),
            cluster: self.marked("*", u64::from(u32::MAX))?.map(|number| number as u32),
        })
    }

    /// A privilege is any number of 8 bits here: whether it is one of the four is the schema's
    /// to say, at `start`.
    fn attribute(&mut self) -> Read<Attribute> {
        let path = self.path()?;
        let read = self.marked("-", u64::from(u8::MAX))?.map(|number| number as u8);
        let write = self.marked("-", u64::from(u8::MAX))?.map(|number| number as u8);
        let nullable = self.flag()?;
        let (kind, first) = self.kind()?;
        Ok(Attribute { path, read, write, nullable, kind, first })
    }

    fn kind(&mut self) -> Read<(Kind, Value)> {
        Ok(match self.next()? {
            "bool" => (Kind::Bool, Value::Bool(self.flag()?)),
            "unsigned" => {
                let (lowest, highest) = (self.number(u64::MAX)?, self.number(u64::MAX)?);
                let first = Value::Unsigned(self.number(u64::MAX)?);
                (Kind::Unsigned { lowest, highest }, first)
            }
            "signed" => {
                let (lowest, highest) = (self.signed()?, self.signed()?);
                (Kind::Signed { lowest, highest }, Value::Signed(self.signed()?))
            }
            "float" => {
                let (lowest, highest) = (self.float()?, self.float()?);
                (Kind::Float { lowest, highest }, Value::Float(self.float()?))
            }
            "text" => (Kind::Text, Value::Text(self.bytes()?)),
            other => return Err(format!("no kind {other:?}")),
        })
    }

    fn value(&mut self) -> Read<Value> {
        Ok(match self.next()? {
            "null" => Value::Null,
            "bool" => Value::Bool(self.flag()?),
            "unsigned" => Value::Unsigned(self.number(u64::MAX)?),
            "signed" => Value::Signed(self.signed()?),
            "float" => Value::Float(self.float()?),
            "text" => Value::Text(self.bytes()?),
            other => return Err(format!("no value {other:?}")),
        })
    }

    fn flag(&mut self) -> Read<bool> {
        match self.next()? {
            "0" => Ok(false),
            "1" => Ok(true),
            other => Err(format!("neither 0 nor 1: {other:?}")),
        }
    }

    fn float(&mut self) -> Read<u32> {
        let word = self.next()?;
        if word.len() != 8 {
            return Err(format!("not eight hex digits: {word:?}"));
        }
        hex(word)
    }

    /// The rest of the line, a byte a word.
    fn bytes(&mut self) -> Read<Vec<u8>> {
        let words = &self.rest[self.at..];
        self.at = self.rest.len();
        words
            .iter()
            .map(|word| match word.len() {
                2 => Ok(hex(word)? as u8),
                _ => Err(format!("not two hex digits: {word:?}")),
            })
            .collect()
    }

    fn message(&mut self) -> Read<Vec<u8>> {
        let bytes = self.bytes()?;
        if bytes.len() > SPELLED_MESSAGE {
            return Err(format!("a message of {} bytes", bytes.len()));
        }
        Ok(bytes)
    }
}

/// Digits only: no sign, nothing else.
fn decimal(word: &str, highest: u64) -> Read<u64> {
    let digits = !word.is_empty() && word.bytes().all(|byte| byte.is_ascii_digit());
    let number = if digits { word.parse().ok() } else { None };
    match number {
        Some(number) if number <= highest => Ok(number),
        _ => Err(format!("not a number up to {highest}: {word:?}")),
    }
}

fn hex(word: &str) -> Read<u32> {
    let digits = word.bytes().all(|byte| byte.is_ascii_hexdigit());
    let number = if digits { u32::from_str_radix(word, 16).ok() } else { None };
    number.ok_or_else(|| format!("not hex digits: {word:?}"))
}
