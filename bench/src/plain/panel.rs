//! The panel: its calls, and its newest request.

use super::envelope::*;
use super::held::Held;
use super::reader::{Value, END};
use super::replies::{write_response, Part};
use super::requests::status_response;
use super::status::SUCCESS;
use super::writer::{Writer, ROOM};
use super::{EXCHANGES, MESSAGE, TEXT_SIZE};

/// The opcodes that a panel takes.
const TAKEN: [u8; 3] = [STATUS_RESPONSE, REPORT, WRITE_RESPONSE];

/// How the newest request stands.
#[derive(Clone, Copy, PartialEq, Debug)]
pub enum Stage {
    NoneYet,
    Reading,
    /// What is written.
    Writing((u16, u32, u32)),
    LastPart,
    Ended(u8),
}

#[derive(Clone)]
struct Newest {
    /// The highest exchange number that was used, and that of this request.
    used: u64,
    exchange: u64,
    stage: Stage,
    /// The turn of the reply that is awaited.
    turn: u16,
    /// The exchange of the newest abandoned write.
    unknown: Option<u64>,
    /// The newest message, and its length.
    kept: [u8; ROOM],
    len: usize,
}

/// The state or the page breaks the rules.
#[derive(Debug)]
pub struct Broken;

#[derive(Clone)]
pub struct Panel<const CHECKED: bool> {
    held: Held,
    newest: Newest,
}

impl<const CHECKED: bool> Panel<CHECKED> {
    pub const FRESH: Self = Panel::holding(Held::NOTHING);

    /// A panel that holds this, and has asked nothing yet.
    pub const fn holding(held: Held) -> Self {
        let newest = Newest {
            used: 0,
            exchange: 0,
            stage: Stage::NoneYet,
            turn: 0,
            unknown: None,
            kept: [0; ROOM],
            len: 0,
        };
        Panel { held, newest }
    }

    /// What refusal 2 asks of state and page.
    pub fn sound(&self, page: &[u8]) -> bool {
        self.held.sound(page) && self.newest.sound()
    }

    /// What a call that sends is refused for first.
    fn refusal(&self, page: &[u8], out: &[u8]) -> Option<u8> {
        if CHECKED && !self.sound(page) {
            return Some(2);
        }
        (out.len() < MESSAGE).then_some(3)
    }

    /// A read of everything, but for whole clusters that have not changed.
    pub fn begin_read(&mut self, page: &[u8], out: &mut [u8]) -> Answer {
        if let Some(number) = self.refusal(page, out).or(self.newest.refusal()) {
            return Answer::Refused(number);
        }
        let mut writer = self.newest.begin(Stage::Reading, READ_REQUEST);
        writer.put([0x36, 0, 0x17, END, END, 0x28, 3]);
        let opened = writer.at;
        writer.put([0x36, 4]);
        let filters = writer.at;
        for (place, version) in self.held.whole_clusters() {
            writer.filter(place, version);
        }
        if writer.at == filters {
            writer.at = opened;
        } else {
            writer.put([END]);
        }
        self.newest.len = writer.finish();
        self.newest.send(out)
    }

    /// A write of one entry.
    pub fn begin_write(
        &mut self,
        page: &[u8],
        path: (u16, u32, u32),
        version: Option<u32>,
        value: &Value,
        out: &mut [u8],
    ) -> Answer {
        if let Some(number) = self.refusal(page, out).or(self.newest.refusal()) {
            return Answer::Refused(number);
        }
        let writable = match value {
            Value::Text(text) => text.len() <= TEXT_SIZE && std::str::from_utf8(text).is_ok(),
            value => *value != Value::Other,
        };
        if !writable {
            return Answer::Refused(10);
        }
        let mut writer = self.newest.begin(Stage::Writing(path), WRITE_REQUEST);
        writer.put([0x28, 0, 0x28, 1, 0x36, 2]);
        writer.write_entry(version, path, value);
        writer.put([END]);
        self.newest.len = writer.finish();
        self.newest.send(out)
    }

    /// The newest message again.
    pub fn resend(&self, page: &[u8], out: &mut [u8]) -> Answer {
        if let Some(number) = self.refusal(page, out) {
            return Answer::Refused(number);
        }
        if self.newest.is_open() {
            self.newest.send(out)
        } else {
            Answer::Refused(9)
        }
    }

    /// A message from the sign.
    pub fn receive(&mut self, page: &mut [u8], message: &[u8], out: &mut [u8]) -> Answer {
        if let Some(number) = self.refusal(page, out) {
            return Answer::Refused(number);
        }
        let Some((envelope, payload)) = open(message, TAKEN) else {
            return Answer::Refused(4);
        };
        if !self.newest.awaits(&envelope) {
            return Answer::Refused(5);
        }
        let taken = match envelope.opcode {
            STATUS_RESPONSE => self.take_status(payload),
            REPORT => self.take_part(page, payload),
            _ => self.take_answer(payload),
        };
        match taken {
            Err(number) => Answer::Refused(number),
            Ok(()) if self.newest.is_open() => self.newest.send(out),
            Ok(()) => Answer::Nothing,
        }
    }

    fn take_status(&mut self, payload: &[u8]) -> Result<(), u8> {
        let status = status_response(payload).map_err(|_| 6)?;
        self.newest.stage = Stage::Ended(status);
        Ok(())
    }

    /// A write's answer must be for its own path.
    fn take_answer(&mut self, payload: &[u8]) -> Result<(), u8> {
        let (path, status) = write_response(payload).map_err(|_| 6)?;
        if self.newest.stage != Stage::Writing(path) {
            return Err(6);
        }
        self.newest.stage = Stage::Ended(status);
        Ok(())
    }

    /// A part is read whole, then there is an entry for each block, then each is set.
    fn take_part(&mut self, page: &mut [u8], payload: &[u8]) -> Result<(), u8> {
        let mut part = Part::NONE;
        part.read(payload).map_err(|_| 6)?;
        if part.more && self.newest.turn == u16::MAX {
            return Err(6);
        }
        self.held.make_room(&mut part).ok_or(7)?;
        self.held.set(page, &mut part);
        if part.more {
            self.newest.ask_on();
        } else {
            self.held.filled = true;
            self.newest.stage = Stage::LastPart;
        }
        Ok(())
    }

    fn asked(&self, page: &[u8]) -> Result<(), Broken> {
        if CHECKED && !self.sound(page) {
            return Err(Broken);
        }
        Ok(())
    }

    /// The version and the value of an entry.
    pub fn entry<'a>(
        &self,
        page: &'a [u8],
        path: (u16, u32, u32),
    ) -> Result<Option<(u32, Value<'a>)>, Broken> {
        self.asked(page)?;
        Ok(self.held.entry(page, path))
    }

    /// The version of a cluster, if it is whole.
    pub fn whole(&self, page: &[u8], place: (u16, u32)) -> Result<Option<u32>, Broken> {
        self.asked(page)?;
        Ok(self.held.whole(place))
    }

    /// How the newest request stands.
    pub fn stage(&self, page: &[u8]) -> Result<Stage, Broken> {
        self.asked(page)?;
        Ok(self.newest.stage)
    }

    /// The exchange of the newest abandoned write.
    pub fn unknown(&self, page: &[u8]) -> Result<Option<u64>, Broken> {
        self.asked(page)?;
        Ok(self.newest.unknown)
    }

    /// The exchange numbers up to this one count as used.
    pub fn use_up_to(&mut self, number: u64) {
        self.newest.used = self.newest.used.max(number);
    }

    pub fn held(&self) -> &Held {
        &self.held
    }
}

impl Newest {
    fn sound(&self) -> bool {
        self.used < EXCHANGES
            && self.exchange <= self.used
            && self.unknown.is_none_or(|exchange| exchange <= self.used)
            && self.len <= MESSAGE
            && (!self.is_open() || self.is_sent())
    }

    /// While it is open: a reply of an exchange, of a write its only one, to a message that was sent.
    fn is_sent(&self) -> bool {
        let writes = matches!(self.stage, Stage::Writing(_));
        self.exchange > 0 && self.turn > 0 && (!writes || self.turn == 1) && self.len > 0
    }

    fn is_open(&self) -> bool {
        matches!(self.stage, Stage::Reading | Stage::Writing(_))
    }

    /// No number is left.
    fn refusal(&self) -> Option<u8> {
        (self.used >= EXCHANGES - 1).then_some(8)
    }

    /// The next request, from its envelope on. A write that was open is unknown from now on.
    fn begin(&mut self, stage: Stage, opcode: u8) -> Writer<'_> {
        if let Stage::Writing(_) = self.stage {
            self.unknown = Some(self.exchange);
        }
        self.used += 1;
        (self.exchange, self.stage, self.turn) = (self.used, stage, 1);
        Writer::message(&mut self.kept, opcode, self.exchange, 0)
    }

    /// The success for the part that was awaited; the next one is awaited then.
    fn ask_on(&mut self) {
        let mut writer = Writer::message(&mut self.kept, STATUS_RESPONSE, self.exchange, self.turn);
        writer.unsigned(0, SUCCESS.into());
        self.len = writer.finish();
        self.turn += 1;
    }

    /// Exchange, turn and opcode.
    fn awaits(&self, envelope: &Envelope) -> bool {
        let opcode_fits = match envelope.opcode {
            STATUS_RESPONSE => envelope.turn == 1 && self.is_open(),
            REPORT => self.stage == Stage::Reading,
            _ => matches!(self.stage, Stage::Writing(_)),
        };
        opcode_fits && envelope.exchange == self.exchange && envelope.turn == self.turn
    }

    fn send(&self, out: &mut [u8]) -> Answer {
        out[..self.len].copy_from_slice(&self.kept[..self.len]);
        Answer::Sent(self.len)
    }
}
