//! The blocks that a read asks for, and how they are cut into parts
//! (RULES 5.1 to 5.12; chapter 8, Incoming Read Request processing).

use crate::acl::{granted, Entry};
use crate::limits::PAYLOAD;
use crate::messages::ReadRequest;
use crate::paths::{Path, SpelledPath};
use crate::schema::Attribute;
use crate::server::Holdings;
use crate::spelling;
use crate::status::{UNSUPPORTED_ACCESS, UNSUPPORTED_READ};
use crate::tlv::{write, Element};

/// A part with the block array and one flag, less its blocks: `15 36 01 .. 18 29 0x 24 FF 0A 18`.
const FRAME: usize = 10;

/// What a part is made from: what is held and lent at that moment.
pub struct View<'a> {
    pub holdings: &'a Holdings,
    pub table: &'a [Entry],
    pub subject: u64,
}

/// A read being answered, and the last block taken: which path of the request, and where in it.
/// The next part goes on just after it.
#[derive(Clone, Debug, PartialEq)]
pub struct Reading {
    pub request: ReadRequest,
    pub after: Option<(usize, Path)>,
}

pub struct Part {
    pub payload: Vec<u8>,
    pub more: bool,
}

impl View<'_> {
    /// 8F or 7E for an attribute that is there.
    fn refusal(&self, attribute: &Attribute) -> Option<u8> {
        let Some(privilege) = attribute.read else { return Some(UNSUPPORTED_READ) };
        if granted(self.table, self.subject, attribute.path.place(), privilege) {
            None
        } else {
            Some(UNSUPPORTED_ACCESS)
        }
    }

    /// Skipped exactly if filters match the cluster and all of them carry its version; one that
    /// agrees is not enough (RULES 5.8, 9.2).
    fn skipped(&self, request: &ReadRequest, path: &Path) -> bool {
        let version = self.holdings.version(path.place());
        let mut matching =
            request.filters.iter().filter(|filter| filter.place == path.place()).peekable();
        matching.peek().is_some() && matching.all(|filter| filter.version == version)
    }

    fn data(&self, request: &ReadRequest, path: &Path) -> Option<Element> {
        if self.skipped(request, path) {
            return None;
        }
        let version = self.holdings.version(path.place());
        Some(spelling::data_block(path, version, self.holdings.value(path)))
    }

    /// The blocks of one request path, each with its own concrete path, in schema order. Only a
    /// concrete path gets refusals; a wildcard drops them silently (RULES 9.5).
    fn blocks(&self, request: &ReadRequest, asked: &SpelledPath) -> Vec<(Path, Element)> {
        let schema = self.holdings.schema();
        if let Some(path) = asked.concrete() {
            let refusal = match schema.find(&path) {
                Err(status) => Some(status),
                Ok(attribute) => self.refusal(attribute),
            };
            let block = match refusal {
                Some(status) => Some(spelling::status_block(&path, status)),
                None => self.data(request, &path),
            };
            return block.into_iter().map(|block| (path, block)).collect();
        }
        let covered = schema.attributes.iter().filter(|one| asked.covers(&one.path));
        covered
            .filter(|one| self.refusal(one).is_none())
            .filter_map(|one| Some((one.path, self.data(request, &one.path)?)))
            .collect()
    }

    /// Everything that would follow the last block taken, in the state now held.
    fn following(&self, reading: &Reading) -> Vec<(usize, Path, Element)> {
        let mut all = Vec::new();
        for (number, asked) in reading.request.paths.iter().enumerate() {
            if reading.after.is_some_and(|(reached, _)| number < reached) {
                continue;
            }
            for (path, block) in self.blocks(&reading.request, asked) {
                if reading.after.is_none_or(|after| (number, path) > after) {
                    all.push((number, path, block));
                }
            }
        }
        all
    }

    /// Makes the next part and moves the reading's place. A part takes the next block exactly if
    /// the payload stays within 1,024 bytes, and promises more exactly if a further one follows.
    pub fn part(&self, reading: &mut Reading) -> Part {
        let following = self.following(reading);
        let total = following.len();
        let mut length = FRAME;
        let mut taken = Vec::new();
        for (number, path, block) in following {
            length += write(&block).len();
            if length > PAYLOAD {
                break;
            }
            reading.after = Some((number, path));
            taken.push(block);
        }
        let more = taken.len() < total;
        Part { payload: write(&spelling::report(taken, more)), more }
    }
}
