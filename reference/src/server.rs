//! The sign: what it holds, its one exchange, and its answers (RULES 3 and 5).

use std::collections::BTreeMap;

use crate::acl::{self, Entry};
use crate::answer::{Answer, BROKEN, NOT_A_MESSAGE, SHORT_BUFFER};
use crate::envelope::{
    open, seal, Envelope, READ_REQUEST, REPORT, STATUS_RESPONSE, WRITE_REQUEST, WRITE_RESPONSE,
};
use crate::limits::{LAST_TURN, MESSAGE};
use crate::messages::{self, ReadRequest, WriteRequest};
use crate::paths::{ClusterPath, Path};
use crate::report::{Reading, View};
use crate::schema::Schema;
use crate::spelling;
use crate::status::SUCCESS;
use crate::tlv::write;
use crate::value::{judge, Value};
use crate::write::perform;

/// The values and versions of a schema's attributes and clusters.
#[derive(Clone, Debug, PartialEq)]
pub struct Holdings {
    schema: Schema,
    values: BTreeMap<Path, Value>,
    versions: BTreeMap<ClusterPath, u32>,
}

impl Holdings {
    /// Only for a path that the schema has; so in each function below.
    pub fn value(&self, path: &Path) -> &Value {
        &self.values[path]
    }

    pub fn version(&self, place: ClusterPath) -> u32 {
        self.versions[&place]
    }

    pub fn schema(&self) -> &Schema {
        &self.schema
    }

    /// A change means that the value differs afterwards; it adds one to the cluster's version,
    /// 2^32 - 1 going to 0. Storing the value held changes nothing.
    pub fn store(&mut self, path: &Path, value: Value) {
        if *self.value(path) == value {
            return;
        }
        self.values.insert(*path, value);
        let version = self.version(path.place()).wrapping_add(1);
        self.versions.insert(path.place(), version);
    }
}

/// The newest exchange served (RULES 3.8).
#[derive(Clone, Debug, Default, PartialEq)]
struct Row {
    last: u64,
    /// The newest reply's number, k.
    turn: u16,
    more: bool,
    closed: bool,
    /// The newest reply; `None` is kept silence.
    kept: Option<Vec<u8>>,
    reading: Option<Reading>,
}

#[derive(Clone, Debug, PartialEq)]
pub struct Server {
    holdings: Holdings,
    row: Row,
}

impl Server {
    /// `None` is refusal 11.
    pub fn start(schema: Schema) -> Option<Server> {
        if !schema.sound() {
            return None;
        }
        let values = schema.attributes.iter().map(|one| (one.path, one.first.clone())).collect();
        let versions = schema.clusters.iter().map(|one| (one.place, one.version)).collect();
        let holdings = Holdings { schema, values, versions };
        Some(Server { holdings, row: Row::default() })
    }

    pub fn holdings(&self) -> &Holdings {
        &self.holdings
    }

    /// The newest exchange served and its newest reply's number.
    pub fn exchange(&self) -> (u64, u16) {
        (self.row.last, self.row.turn)
    }

    /// Whether the newest reply promised more that may still be fetched.
    pub fn promised(&self) -> bool {
        self.row.more && !self.row.closed
    }

    /// A local change obeys kind and limits as a write does, but not privilege, writability or
    /// version. Answers a wire code and touches nothing unless it is 00.
    pub fn change(&mut self, path: &Path, value: Value) -> u8 {
        let status = match self.holdings.schema.find(path) {
            Err(status) => status,
            Ok(attribute) => judge(&attribute.kind, attribute.nullable, &value),
        };
        if status == SUCCESS {
            self.holdings.store(path, value);
        }
        status
    }

    /// A message handed over with a table of entries and a buffer of `room` bytes. Refusals 2, 3,
    /// 4 in this order, then silence to a subject that is not served, then the exchange's rules.
    pub fn receive(
        &mut self,
        table: &[Entry],
        subject: u64,
        message: &[u8],
        room: usize,
    ) -> Answer {
        if !acl::sound(table) {
            return Answer::Refused(BROKEN);
        }
        if room < MESSAGE {
            return Answer::Refused(SHORT_BUFFER);
        }
        let opcodes = [STATUS_RESPONSE, READ_REQUEST, WRITE_REQUEST];
        let Some((envelope, payload)) = open(message, &opcodes) else {
            return Answer::Refused(NOT_A_MESSAGE);
        };
        if subject != self.holdings.schema.subject {
            return Answer::Nothing;
        }
        let reply = if envelope.opcode == STATUS_RESPONSE {
            self.status(table, envelope, payload)
        } else {
            self.request(table, envelope, payload)
        };
        reply.map_or(Answer::Nothing, Answer::Done)
    }

    /// Opcode 2 or 6: a new exchange, or the newest request repeated.
    fn request(&mut self, table: &[Entry], envelope: Envelope, payload: &[u8]) -> Option<Vec<u8>> {
        if envelope.turn != 0 {
            return None;
        }
        if envelope.exchange > self.row.last {
            self.row = Row { last: envelope.exchange, turn: 1, ..Row::default() };
            self.row.kept = self.begin(table, envelope.opcode, payload);
            return self.row.kept.clone();
        }
        // The payload is not read again, so that a repeated write is stored once (RULES 9.3).
        let repeated = envelope.exchange == self.row.last && self.row.turn == 1;
        if repeated && !self.row.closed {
            self.row.kept.clone()
        } else {
            None
        }
    }

    /// The first reply of an exchange; a request refused whole gets a Status Response.
    fn begin(&mut self, table: &[Entry], opcode: u8, payload: &[u8]) -> Option<Vec<u8>> {
        if opcode == READ_REQUEST {
            return match ReadRequest::accept(payload) {
                Ok(request) => {
                    self.row.reading = Some(Reading { request, after: None });
                    self.next_part(table)
                }
                Err(status) => Some(self.refuse(status)),
            };
        }
        match WriteRequest::accept(payload) {
            Ok(request) => {
                let subject = self.holdings.schema.subject;
                let statuses = perform(&mut self.holdings, table, subject, &request);
                let payload = write(&spelling::write_response(&statuses));
                (!request.suppress).then(|| self.sealed(WRITE_RESPONSE, &payload))
            }
            Err(status) => Some(self.refuse(status)),
        }
    }

    fn refuse(&self, status: u8) -> Vec<u8> {
        self.sealed(STATUS_RESPONSE, &write(&spelling::status_response(status)))
    }

    fn sealed(&self, opcode: u8, payload: &[u8]) -> Vec<u8> {
        let Row { last: exchange, turn, .. } = self.row;
        seal(Envelope { opcode, exchange, turn }, payload)
    }

    /// Makes a part from what is held and lent now, sealed with the row's turn.
    fn next_part(&mut self, table: &[Entry]) -> Option<Vec<u8>> {
        let subject = self.holdings.schema.subject;
        let view = View { holdings: &self.holdings, table, subject };
        let part = view.part(self.row.reading.as_mut()?);
        self.row.more = part.more;
        Some(self.sealed(REPORT, &part.payload))
    }

    /// Opcode 1: the next part, the kept one again, or the end of the exchange.
    fn status(&mut self, table: &[Entry], envelope: Envelope, payload: &[u8]) -> Option<Vec<u8>> {
        let status = messages::status_response(payload)?;
        let Envelope { exchange, turn, .. } = envelope;
        if exchange != self.row.last || self.row.closed || turn == 0 {
            return None;
        }
        let k = self.row.turn;
        if status == SUCCESS && turn.checked_add(1) == Some(k) {
            return self.row.kept.clone();
        }
        if turn != k || !self.row.more {
            return None;
        }
        if status != SUCCESS {
            self.row.closed = true;
            return None;
        }
        if k == LAST_TURN {
            return None;
        }
        self.row.turn = k + 1;
        self.row.kept = self.next_part(table);
        self.row.kept.clone()
    }
}
