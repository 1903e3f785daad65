//! Matter TLV, read in one pass: each head once.

use super::DEPTH;

/// What gets 80: spelling, a field's type or range, or a form that is not served.
pub struct Malformed;
pub type Read<T> = Result<T, Malformed>;

/// That something holds, or malformed.
#[inline]
pub fn hold(holds: bool) -> Read<()> {
    if holds {
        Ok(())
    } else {
        Err(Malformed)
    }
}

// Element types. The two lower bits of a number's or a string's say how wide the number or the length is.
const SIGNED: u8 = 0;
const UNSIGNED: u8 = 4;
const FALSE: u8 = 8;
const TRUE: u8 = 9;
const FLOAT: u8 = 10;
const DOUBLE: u8 = 11;
const TEXT: u8 = 12;
const BYTES: u8 = 16;
const NULL: u8 = 20;
pub const STRUCTURE: u8 = 21;
pub const ARRAY: u8 = 22;
pub const LIST: u8 = 23;
pub const END: u8 = 24;

// Tags beside the context tags 0 to 255.
const PROFILE: u16 = 256;
const UNTAGGED: u16 = 257;

/// How long the profile tag of each tag form is.
const PROFILE_BYTES: [usize; 8] = [0, 0, 2, 4, 2, 4, 6, 8];

#[derive(Clone, Copy)]
pub struct Element {
    pub tag: u16,
    pub kind: u8,
    number: u64,
    /// Where a string's bytes start.
    body: usize,
}

#[derive(Clone, Copy, Debug, PartialEq)]
pub enum Value<'a> {
    Null,
    Bool(bool),
    Unsigned(u64),
    Signed(i64),
    Float(u32),
    Text(&'a [u8]),
    /// Of a type that no attribute has.
    Other,
}

impl Element {
    pub fn unsigned(&self, highest: u64) -> Read<u64> {
        hold((UNSIGNED..FALSE).contains(&self.kind) && self.number <= highest)?;
        Ok(self.number)
    }

    pub fn endpoint(&self) -> Read<u16> {
        Ok(self.unsigned(u16::MAX.into())? as u16)
    }

    /// A cluster's id, an attribute's, or a version.
    pub fn id(&self) -> Read<u32> {
        Ok(self.unsigned(u32::MAX.into())? as u32)
    }

    pub fn octet(&self) -> Read<u8> {
        Ok(self.unsigned(u8::MAX.into())? as u8)
    }

    pub fn flag(&self) -> Read<bool> {
        hold(self.kind == FALSE || self.kind == TRUE)?;
        Ok(self.kind == TRUE)
    }

    pub fn value<'a>(&self, bytes: &'a [u8]) -> Value<'a> {
        let number = self.number;
        match self.kind {
            SIGNED => Value::Signed(number as i8 as i64),
            1 => Value::Signed(number as i16 as i64),
            2 => Value::Signed(number as i32 as i64),
            3 => Value::Signed(number as i64),
            UNSIGNED..FALSE => Value::Unsigned(number),
            FALSE => Value::Bool(false),
            TRUE => Value::Bool(true),
            FLOAT => Value::Float(number as u32),
            TEXT..BYTES => Value::Text(&bytes[self.body..self.body + number as usize]),
            NULL => Value::Null,
            _ => Value::Other,
        }
    }
}

pub struct Reader<'a> {
    pub bytes: &'a [u8],
    at: usize,
}

impl<'a> Reader<'a> {
    /// At the members of a message, which is one untagged structure.
    pub fn message(bytes: &'a [u8]) -> Read<Reader<'a>> {
        let mut reader = Reader { bytes, at: 0 };
        let head = reader.head()?;
        hold(head.kind == STRUCTURE && head.tag == UNTAGGED)?;
        Ok(reader)
    }

    #[inline]
    fn take<const N: usize>(&mut self) -> Read<[u8; N]> {
        let taken = self.bytes.get(self.at..).and_then(|rest| rest.first_chunk());
        self.at += N;
        taken.copied().ok_or(Malformed)
    }

    /// The number after a head, by the width that the type's lower bits say.
    #[inline]
    fn number(&mut self, kind: u8) -> Read<u64> {
        Ok(match kind & 3 {
            0 => u8::from_le_bytes(self.take()?).into(),
            1 => u16::from_le_bytes(self.take()?).into(),
            2 => u32::from_le_bytes(self.take()?).into(),
            _ => u64::from_le_bytes(self.take()?),
        })
    }

    #[inline]
    fn tag(&mut self, form: u8) -> Read<u16> {
        match form {
            0 => Ok(UNTAGGED),
            1 => self.take().map(|[tag]| tag.into()),
            _ => {
                self.at += PROFILE_BYTES[usize::from(form)];
                hold(self.at <= self.bytes.len())?;
                Ok(PROFILE)
            }
        }
    }

    #[inline]
    fn head(&mut self) -> Read<Element> {
        let [control] = self.take()?;
        let (form, kind) = (control >> 5, control & 31);
        hold(kind < END || kind == END && form == 0)?;
        let tag = self.tag(form)?;
        let number = match kind {
            SIGNED..FALSE | TEXT..NULL => self.number(kind)?,
            FLOAT => u32::from_le_bytes(self.take()?).into(),
            DOUBLE => u64::from_le_bytes(self.take()?),
            _ => 0,
        };
        let body = self.at;
        if (TEXT..NULL).contains(&kind) {
            hold(number <= (self.bytes.len() - body) as u64)?;
            self.at += number as usize;
        }
        Ok(Element { tag, kind, number, body })
    }

    /// The next member of a container, or none at its end.
    #[inline]
    pub fn member(&mut self, container: u8) -> Read<Option<Element>> {
        let head = self.head()?;
        if head.kind == END {
            return Ok(None);
        }
        hold(match container {
            STRUCTURE => head.tag != UNTAGGED,
            ARRAY => head.tag == UNTAGGED,
            _ => true,
        })?;
        Ok(Some(head))
    }

    /// Past a member whose head was read, in the container that is so deep in the message.
    #[inline]
    pub fn skip(&mut self, head: &Element, depth: usize) -> Read<()> {
        if head.kind < STRUCTURE {
            return Ok(());
        }
        self.skip_members(head.kind, depth + 1)
    }

    fn skip_members(&mut self, container: u8, depth: usize) -> Read<()> {
        hold(depth <= DEPTH)?;
        while let Some(head) = self.member(container)? {
            self.skip(&head, depth)?;
        }
        Ok(())
    }

    pub fn ended(&self) -> Read<()> {
        hold(self.at == self.bytes.len())
    }
}

/// Which listed fields were seen: each may come once.
#[derive(Default)]
pub struct Seen(u16);

impl Seen {
    #[inline]
    pub fn once(&mut self, field: u16) -> Read<()> {
        let bit = 1 << field;
        hold(self.0 & bit == 0)?;
        self.0 |= bit;
        Ok(())
    }

    pub fn all(&self, fields: &[u16]) -> Read<()> {
        hold(fields.iter().all(|field| self.0 & (1 << field) != 0))
    }
}
