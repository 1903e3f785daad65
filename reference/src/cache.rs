//! The panel: its copy of what it may read, and its one open exchange (RULES 7).

use std::collections::{BTreeMap, BTreeSet};

use crate::answer::{
    Answer, NOTHING_OPEN, NOT_AWAITED, NOT_A_MESSAGE, NOT_WRITABLE, NUMBERS_USED_UP, SHORT_BUFFER,
    TOO_MUCH, UNUSABLE,
};
use crate::envelope::{
    open, seal, Envelope, READ_REQUEST, REPORT, STATUS_RESPONSE, WRITE_REQUEST, WRITE_RESPONSE,
};
use crate::limits::{ATTRIBUTES, CLUSTERS, LAST_EXCHANGE, LAST_TURN, MESSAGE};
use crate::messages::{self, Report, ReportBlock};
use crate::paths::{ClusterPath, Path};
use crate::spelling;
use crate::status::SUCCESS;
use crate::tlv::{write, Element};
use crate::value::Value;

#[derive(Clone, Copy, Debug, PartialEq, Eq)]
enum Asked {
    Read,
    Write(Path),
}

#[derive(Clone, Debug, PartialEq)]
struct Open {
    asked: Asked,
    exchange: u64,
    /// The turn of the reply that is awaited.
    awaited: u16,
    /// The newest message, for a resend.
    newest: Vec<u8>,
}

/// How the newest request stands.
#[derive(Clone, Copy, Debug, PartialEq, Eq)]
pub enum Outcome {
    NoneYet,
    Open,
    LastPart,
    Status(u8),
}

#[derive(Clone, Debug, PartialEq)]
pub struct Cache {
    entries: BTreeMap<Path, (u32, Value)>,
    /// "Filled": some read has ended on its last part.
    primed: bool,
    /// The highest exchange number that counts as used.
    used: u64,
    open: Option<Open>,
    outcome: Outcome,
    unknown: Option<u64>,
}

/// A checked block of a report: path, version, value.
type Block = (Path, u32, Value);

impl Default for Cache {
    fn default() -> Cache {
        Cache {
            entries: BTreeMap::new(),
            primed: false,
            used: 0,
            open: None,
            outcome: Outcome::NoneYet,
            unknown: None,
        }
    }
}

impl Cache {
    /// Whole exactly if filled and all the cluster's entries, one at least, share one version;
    /// a last part alone does not make it so (RULES 9.4).
    pub fn coherent(&self, place: ClusterPath) -> Option<u32> {
        let mut versions =
            self.entries.iter().filter(|(path, _)| path.place() == place).map(|(_, entry)| entry.0);
        let first = versions.next()?;
        (self.primed && versions.all(|version| version == first)).then_some(first)
    }

    pub fn entry(&self, path: &Path) -> Option<&(u32, Value)> {
        self.entries.get(path)
    }

    pub fn entries(&self) -> &BTreeMap<Path, (u32, Value)> {
        &self.entries
    }

    pub fn outcome(&self) -> Outcome {
        self.outcome
    }

    /// The exchange of the newest abandoned write.
    pub fn unknown(&self) -> Option<u64> {
        self.unknown
    }

    /// The exchange and turn awaited.
    pub fn awaited(&self) -> Option<(u64, u16)> {
        self.open.as_ref().map(|open| (open.exchange, open.awaited))
    }

    pub fn used(&self) -> u64 {
        self.used
    }

    /// The exchange numbers up to this one count as used.
    pub fn use_up_to(&mut self, number: u64) {
        self.used = self.used.max(number);
    }

    pub fn clusters(&self) -> BTreeSet<ClusterPath> {
        self.entries.keys().map(Path::place).collect()
    }

    /// One full wildcard path, and a filter for each whole cluster in rising order.
    pub fn begin_read(&mut self, room: usize) -> Answer {
        if let Some(number) = self.begin_refusal(room) {
            return Answer::Refused(number);
        }
        let whole = self.clusters().into_iter();
        let filters = whole
            .filter_map(|place| Some(spelling::filter(place, self.coherent(place)?)))
            .collect();
        let payload = spelling::read_request(vec![spelling::open_path(None, None, None)], filters);
        self.begin(Asked::Read, READ_REQUEST, &payload)
    }

    /// One write of one entry, its version optional.
    pub fn begin_write(
        &mut self,
        path: Path,
        version: Option<u32>,
        value: &Value,
        room: usize,
    ) -> Answer {
        if let Some(number) = self.begin_refusal(room) {
            return Answer::Refused(number);
        }
        if !value.is_utf8() || value.is_too_long() {
            return Answer::Refused(NOT_WRITABLE);
        }
        let entry = spelling::write_entry(version, &path, value);
        let payload = spelling::write_request(false, vec![entry]);
        self.begin(Asked::Write(path), WRITE_REQUEST, &payload)
    }

    fn begin_refusal(&self, room: usize) -> Option<u8> {
        if room < MESSAGE {
            Some(SHORT_BUFFER)
        } else if self.used >= LAST_EXCHANGE {
            Some(NUMBERS_USED_UP)
        } else {
            None
        }
    }

    /// Beginning anew abandons the old exchange; an abandoned write is "unknown".
    fn begin(&mut self, asked: Asked, opcode: u8, payload: &Element) -> Answer {
        if let Some(Open { asked: Asked::Write(_), exchange, .. }) = self.open {
            self.unknown = Some(exchange);
        }
        self.used += 1;
        let exchange = self.used;
        let newest = seal(Envelope { opcode, exchange, turn: 0 }, &write(payload));
        self.open = Some(Open { asked, exchange, awaited: 1, newest: newest.clone() });
        self.outcome = Outcome::Open;
        Answer::Done(newest)
    }

    pub fn resend(&self, room: usize) -> Answer {
        if room < MESSAGE {
            return Answer::Refused(SHORT_BUFFER);
        }
        match &self.open {
            Some(open) => Answer::Done(open.newest.clone()),
            None => Answer::Refused(NOTHING_OPEN),
        }
    }

    /// A message handed over with a buffer of `room` bytes. Refusals 3 to 7 in this order.
    pub fn receive(&mut self, message: &[u8], room: usize) -> Answer {
        if room < MESSAGE {
            return Answer::Refused(SHORT_BUFFER);
        }
        let opcodes = [STATUS_RESPONSE, REPORT, WRITE_RESPONSE];
        let Some((envelope, payload)) = open(message, &opcodes) else {
            return Answer::Refused(NOT_A_MESSAGE);
        };
        let Some(asked) = self.awaits(envelope) else {
            return Answer::Refused(NOT_AWAITED);
        };
        let done = match (envelope.opcode, asked) {
            (STATUS_RESPONSE, _) => self.take_status(payload),
            (_, Asked::Read) => self.take_report(envelope, payload),
            (_, Asked::Write(path)) => self.take_write_response(path, payload),
        };
        match done {
            Ok(Some(reply)) => Answer::Done(reply),
            Ok(None) => Answer::Nothing,
            Err(number) => Answer::Refused(number),
        }
    }

    /// Opcode 1 at turn 1 alone, 5 in a read, 7 in a write.
    fn awaits(&self, envelope: Envelope) -> Option<Asked> {
        let open = self.open.as_ref()?;
        let opcode_fits = match envelope.opcode {
            STATUS_RESPONSE => envelope.turn == 1,
            REPORT => open.asked == Asked::Read,
            _ => matches!(open.asked, Asked::Write(_)),
        };
        let fits = (envelope.exchange, envelope.turn) == (open.exchange, open.awaited);
        (fits && opcode_fits).then_some(open.asked)
    }

    fn end(&mut self, outcome: Outcome) -> Result<Option<Vec<u8>>, u8> {
        self.open = None;
        self.outcome = outcome;
        Ok(None)
    }

    /// A Status Response to a request ends it with that status.
    fn take_status(&mut self, payload: &[u8]) -> Result<Option<Vec<u8>>, u8> {
        let status = messages::status_response(payload).ok_or(UNUSABLE)?;
        self.end(Outcome::Status(status))
    }

    /// Exactly one status, for the write's own path. Writes never touch entries.
    fn take_write_response(&mut self, path: Path, payload: &[u8]) -> Result<Option<Vec<u8>>, u8> {
        let statuses = messages::write_response(payload).ok_or(UNUSABLE)?;
        let [(spelled, status)] = statuses.as_slice() else { return Err(UNUSABLE) };
        if spelled.is_refused() || spelled.concrete() != Some(path) {
            return Err(UNUSABLE);
        }
        self.end(Outcome::Status(*status))
    }

    /// A part is checked whole, 6 before 7, then each block sets an entry.
    fn take_report(&mut self, envelope: Envelope, payload: &[u8]) -> Result<Option<Vec<u8>>, u8> {
        let report = Report::read(payload).ok_or(UNUSABLE)?;
        if report.more && envelope.turn == LAST_TURN {
            return Err(UNUSABLE);
        }
        let blocks: Option<Vec<Block>> = report.blocks.iter().map(checked_block).collect();
        let entries = self.with(&blocks.ok_or(UNUSABLE)?).ok_or(TOO_MUCH)?;
        self.entries = entries;
        if !report.more {
            self.primed = true;
            return self.end(Outcome::LastPart);
        }
        Ok(Some(self.ask_for_more(envelope)))
    }

    /// The success for reply k has turn k; reply k + 1 is then awaited.
    fn ask_for_more(&mut self, taken: Envelope) -> Vec<u8> {
        let payload = write(&spelling::status_response(SUCCESS));
        let envelope = Envelope { opcode: STATUS_RESPONSE, ..taken };
        let newest = seal(envelope, &payload);
        if let Some(open) = &mut self.open {
            open.awaited = taken.turn + 1;
            open.newest = newest.clone();
        }
        newest
    }

    /// The entries with these blocks set; `None` is refusal 7.
    fn with(&self, blocks: &[Block]) -> Option<BTreeMap<Path, (u32, Value)>> {
        let mut entries = self.entries.clone();
        for (path, version, value) in blocks {
            if value.is_too_long() {
                return None;
            }
            entries.insert(*path, (*version, value.clone()));
        }
        let clusters: BTreeSet<ClusterPath> = entries.keys().map(Path::place).collect();
        (entries.len() <= ATTRIBUTES && clusters.len() <= CLUSTERS).then_some(entries)
    }
}

/// What refusal 6 asks of a block: data, a concrete path of no refused form, a version, and null
/// or one of the five kinds. Kinds are judged, not limits: any float bits will do.
fn checked_block(block: &ReportBlock) -> Option<Block> {
    let ReportBlock::Data(data) = block else { return None };
    if data.path.is_refused() {
        return None;
    }
    let value = Value::of(&data.data)?;
    value.is_utf8().then_some(())?;
    Some((data.path.concrete()?, data.version?, value))
}
