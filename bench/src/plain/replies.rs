//! What a sign answers, read in one pass: parts of reports and write responses. What refusal 6 asks of a block is malformed here, as spelling is.

use super::blocks::{Data, Path};
use super::reader::*;
use super::requests::{REVISION, REVISION_FIELD};

/// What a payload has room for at most: no block that is taken has fewer than 22 bytes, and what stands around them takes eight.
const BLOCKS: usize = (1024 - 8) / 22;

/// A part of a report, read whole before anything is set.
pub struct Part<'a> {
    blocks: [Data<'a>; BLOCKS],
    /// The entry that each sets, once it has one.
    entries: [u8; BLOCKS],
    count: usize,
    /// Whether more is promised.
    pub more: bool,
}

impl<'a> Part<'a> {
    pub const NONE: Part<'static> =
        Part { blocks: [Data::NONE; BLOCKS], entries: [0; BLOCKS], count: 0, more: false };

    /// A part taken in place.
    pub fn read(&mut self, payload: &'a [u8]) -> Read<()> {
        let mut reader = Reader::message(payload)?;
        let mut seen = Seen::default();
        while let Some(head) = reader.member(STRUCTURE)? {
            match head.tag {
                0 | 1 | 3 | 4 => seen.once(head.tag)?,
                REVISION => seen.once(REVISION_FIELD)?,
                _ => reader.skip(&head, 0)?,
            }
            match head.tag {
                // The subscription's number, and that no response is wanted.
                0 => _ = head.id()?,
                4 => _ = head.flag()?,
                1 => {
                    hold(head.kind == ARRAY)?;
                    self.read_blocks(&mut reader)?;
                }
                3 => self.more = head.flag()?,
                REVISION => _ = head.octet()?,
                _ => {}
            }
        }
        seen.all(&[REVISION_FIELD])?;
        reader.ended()
    }

    fn read_blocks(&mut self, reader: &mut Reader<'a>) -> Read<()> {
        while let Some(head) = reader.member(ARRAY)? {
            hold(head.kind == STRUCTURE)?;
            read_block(reader, &mut self.blocks[self.count])?;
            self.count += 1;
        }
        Ok(())
    }

    /// The blocks, each with the entry that it sets.
    pub fn blocks(&mut self) -> impl Iterator<Item = (&Data<'a>, &mut u8)> {
        self.blocks[..self.count].iter().zip(&mut self.entries)
    }
}

/// A block with a status is refused.
fn read_block<'a>(reader: &mut Reader<'a>, block: &mut Data<'a>) -> Read<()> {
    let mut seen = Seen::default();
    while let Some(head) = reader.member(STRUCTURE)? {
        match head.tag {
            0 => return Err(Malformed),
            1 => {
                seen.once(1)?;
                hold(head.kind == STRUCTURE)?;
                block.fill(reader, 3)?;
            }
            _ => reader.skip(&head, 2)?,
        }
    }
    seen.all(&[1])?;
    hold(block.version.is_some())?;
    hold(match block.value {
        Value::Other => false,
        Value::Text(text) => std::str::from_utf8(text).is_ok(),
        _ => true,
    })
}

/// A path, and the status for it.
type Status = ((u16, u32, u32), u8);

/// A write response: its one path and status.
pub fn write_response(payload: &[u8]) -> Read<Status> {
    let mut reader = Reader::message(payload)?;
    let (mut seen, mut answer) = (Seen::default(), None);
    while let Some(head) = reader.member(STRUCTURE)? {
        match head.tag {
            0 => {
                seen.once(0)?;
                hold(head.kind == ARRAY)?;
                answer = one_status(&mut reader)?;
            }
            REVISION => {
                seen.once(REVISION_FIELD)?;
                head.octet()?;
            }
            _ => reader.skip(&head, 0)?,
        }
    }
    seen.all(&[REVISION_FIELD])?;
    reader.ended()?;
    answer.ok_or(Malformed)
}

/// A list of at most one: of several none would be for the one entry that was written.
fn one_status(reader: &mut Reader) -> Read<Option<Status>> {
    let mut answer = None;
    while let Some(head) = reader.member(ARRAY)? {
        hold(head.kind == STRUCTURE && answer.is_none())?;
        answer = Some(attribute_status(reader)?);
    }
    Ok(answer)
}

fn attribute_status(reader: &mut Reader) -> Read<Status> {
    let (mut path, mut status) = (None, None);
    while let Some(head) = reader.member(STRUCTURE)? {
        match head.tag {
            0 => {
                hold(path.is_none() && head.kind == LIST)?;
                path = Some(Path::read(reader, 3)?.exact().ok_or(Malformed)?);
            }
            1 => {
                hold(status.is_none() && head.kind == STRUCTURE)?;
                status = Some(status_code(reader)?);
            }
            _ => reader.skip(&head, 2)?,
        }
    }
    path.zip(status).ok_or(Malformed)
}

/// A status of the interaction; one of the cluster may stand beside it.
fn status_code(reader: &mut Reader) -> Read<u8> {
    let (mut seen, mut status) = (Seen::default(), 0);
    while let Some(head) = reader.member(STRUCTURE)? {
        match head.tag {
            0 => {
                seen.once(0)?;
                status = head.octet()?;
            }
            1 => {
                seen.once(1)?;
                head.octet()?;
            }
            _ => reader.skip(&head, 3)?,
        }
    }
    seen.all(&[0])?;
    Ok(status)
}
