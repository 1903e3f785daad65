//! The sign: its calls, and the exchange that it serves.

use super::access::{self, level, Entry};
use super::envelope::*;
use super::reader::{Malformed, Value, END};
use super::report::{put_report, Place, Source};
use super::requests::{status_response, Request, Write};
use super::schema::Schema;
use super::status::*;
use super::values::Values;
use super::writer::{Writer, ROOM};
use super::{Lent, ATTRIBUTES, ENVELOPE, EXCHANGES, FILTERS, MESSAGE, PATHS};

/// The opcodes that a sign takes.
const TAKEN: [u8; 3] = [STATUS_RESPONSE, READ_REQUEST, WRITE_REQUEST];

/// The exchange that is served.
#[derive(Clone)]
struct Row {
    last: u64,
    turn: u16,
    promised: bool,
    closed: bool,
    request: Request,
    place: Place,
    /// The newest reply, and its length: 0 for silence.
    kept: [u8; ROOM],
    len: usize,
}

#[derive(Clone)]
pub struct Sign<const CHECKED: bool> {
    values: Values,
    row: Row,
}

impl<const CHECKED: bool> Sign<CHECKED> {
    /// A fresh sign, if the schema keeps the rules.
    pub fn start(schema: &Schema) -> Option<Self> {
        schema.sound().then(|| Sign::holding(Values::first(schema)))
    }

    /// A sign that holds these values, and has served nothing yet.
    pub fn holding(values: Values) -> Self {
        let row = Row {
            last: 0,
            turn: 0,
            promised: false,
            closed: false,
            request: Request::NONE,
            place: Place { path: 0, index: 0 },
            kept: [0; ROOM],
            len: 0,
        };
        Sign { values, row }
    }

    /// What refusal 2 asks of schema, pages and state.
    pub fn sound(&self, schema: &Schema, edits: &[u8]) -> bool {
        self.values.sound(schema, edits) && self.row.sound()
    }

    /// A change made at the sign itself: 2, or a status.
    pub fn change(
        &mut self,
        schema: &Schema,
        edits: &mut [u8],
        path: (u16, u32, u32),
        value: &Value,
    ) -> u8 {
        if CHECKED && !self.sound(schema, edits) {
            return 2;
        }
        match schema.locate(path) {
            Ok(i) => self.values.offer(schema, edits, i, value),
            Err(status) => status,
        }
    }

    /// A message from a subject.
    pub fn receive(
        &mut self,
        schema: &Schema,
        edits: &mut [u8],
        table: &[Entry],
        subject: u64,
        message: &[u8],
        out: &mut [u8],
    ) -> Answer {
        if CHECKED && !(self.sound(schema, edits) && access::sound(table)) {
            return Answer::Refused(2);
        }
        if out.len() < MESSAGE {
            return Answer::Refused(3);
        }
        let Some((envelope, payload)) = open(message, TAKEN) else {
            return Answer::Refused(4);
        };
        if subject != schema.subject {
            return Answer::Nothing;
        }
        let lent = Lent { schema, table, subject };
        let answered = match envelope.opcode {
            STATUS_RESPONSE => self.take_status(lent, edits, &envelope, payload),
            _ => self.take_request(lent, edits, &envelope, payload),
        };
        if answered {
            self.row.send(out)
        } else {
            Answer::Nothing
        }
    }

    /// A request begins an exchange, or is a repeat. Whether what is kept is to be sent.
    fn take_request(
        &mut self,
        lent: Lent,
        edits: &mut [u8],
        envelope: &Envelope,
        payload: &[u8],
    ) -> bool {
        let &Envelope { opcode, exchange, turn } = envelope;
        let row = &mut self.row;
        if turn != 0 || exchange < row.last {
            return false;
        }
        if exchange == row.last {
            return row.turn == 1 && !row.closed;
        }
        (row.last, row.turn, row.promised, row.closed) = (exchange, 1, false, false);
        let verdict = match opcode {
            READ_REQUEST => row.request.read(payload),
            _ => self.take_write(lent, edits, payload),
        };
        match verdict {
            Ok(SUCCESS) if opcode == READ_REQUEST => {
                self.row.place = Place { path: 0, index: 0 };
                self.make_part(lent, edits);
            }
            Ok(SUCCESS) => {}
            Ok(status) => self.row.refuse(status),
            Err(Malformed) => self.row.refuse(INVALID_ACTION),
        }
        true
    }

    /// A status asks for the next part, for the kept one again, or closes the exchange. Whether what is kept is to be sent.
    fn take_status(
        &mut self,
        lent: Lent,
        edits: &[u8],
        envelope: &Envelope,
        payload: &[u8],
    ) -> bool {
        let &Envelope { exchange, turn, .. } = envelope;
        let Ok(status) = status_response(payload) else { return false };
        let row = &mut self.row;
        if exchange != row.last || row.closed {
            return false;
        }
        if turn != row.turn || !row.promised {
            return status == SUCCESS && turn >= 1 && turn.checked_add(1) == Some(row.turn);
        }
        if status != SUCCESS {
            row.closed = true;
            return false;
        }
        let Some(next) = turn.checked_add(1) else { return false };
        row.turn = next;
        self.make_part(lent, edits);
        true
    }

    /// The next part of the report, made where it is kept.
    fn make_part(&mut self, lent: Lent, edits: &[u8]) {
        let Row { last, turn, promised, request, place, kept, len, .. } = &mut self.row;
        let source = Source { lent, edits, values: &self.values, request };
        let writer = Writer::message(kept, REPORT, *last, *turn);
        (*len, *promised) = put_report(&source, place, writer);
    }

    /// A write action read whole, then stored and answered: success, or the status that refuses it.
    fn take_write(
        &mut self,
        lent: Lent,
        edits: &mut [u8],
        payload: &[u8],
    ) -> Result<u8, Malformed> {
        let mut write = Write::NONE;
        let verdict = write.read(payload)?;
        if verdict != SUCCESS {
            return Ok(verdict);
        }
        let Row { last, kept, len, .. } = &mut self.row;
        let mut writer = Writer::message(kept, WRITE_RESPONSE, *last, 1);
        writer.put([0x36, 0]);
        for data in write.entries() {
            let status = match lent.writable(data.path, data.version, &self.values) {
                Ok(i) => self.values.offer(lent.schema, edits, i, &data.value),
                Err(status) => status,
            };
            writer.status(data.path, status);
        }
        writer.put([END]);
        *len = if write.suppress { 0 } else { writer.finish() };
        Ok(SUCCESS)
    }
}

impl Lent<'_> {
    /// Where the attribute stands that may be written, whatever the value is.
    fn writable(
        &self,
        path: (u16, u32, u32),
        version: Option<u32>,
        values: &Values,
    ) -> Result<usize, u8> {
        let i = self.schema.locate(path)?;
        let attribute = &self.schema.attributes[i];
        if attribute.write == 0 {
            return Err(UNSUPPORTED_WRITE);
        }
        if attribute.write > level(self.table, self.subject, self.schema.cluster_of(attribute)) {
            return Err(UNSUPPORTED_ACCESS);
        }
        if version.is_some_and(|asked| asked != values.versions[usize::from(attribute.cluster)]) {
            return Err(DATA_VERSION_MISMATCH);
        }
        Ok(i)
    }
}

impl Row {
    fn sound(&self) -> bool {
        self.last < EXCHANGES
            && self.request.path_count <= PATHS
            && self.request.filter_count <= FILTERS
            && self.place.path <= self.request.path_count
            && self.place.index <= ATTRIBUTES
            && (self.len == 0 || (ENVELOPE..=MESSAGE).contains(&self.len))
            && self.served_sound()
    }

    /// An exchange that was served has a reply; without one nothing is promised, closed or kept.
    fn served_sound(&self) -> bool {
        match self.last {
            0 => self.turn == 0 && !self.promised && !self.closed && self.len == 0,
            _ => self.turn > 0,
        }
    }

    /// The status that refuses a request; nothing of it is kept.
    fn refuse(&mut self, status: u8) {
        (self.request.path_count, self.request.filter_count) = (0, 0);
        self.place = Place { path: 0, index: 0 };
        let mut writer = Writer::message(&mut self.kept, STATUS_RESPONSE, self.last, 1);
        writer.unsigned(0, status.into());
        self.len = writer.finish();
    }

    fn send(&self, out: &mut [u8]) -> Answer {
        if self.len == 0 {
            return Answer::Nothing;
        }
        out[..self.len].copy_from_slice(&self.kept[..self.len]);
        Answer::Sent(self.len)
    }
}
