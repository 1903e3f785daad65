//! Requests and statuses, read in one pass.

use super::blocks::{Data, Filter, Path};
use super::reader::*;
use super::schema::Cluster;
use super::status::*;
use super::{FILTERS, PATHS, WRITES};

/// The revision's tag, which each message carries, and the field that it counts as.
pub const REVISION: u16 = 255;
pub const REVISION_FIELD: u16 = 9;

/// A read that is answered.
#[derive(Clone)]
pub struct Request {
    paths: [Path; PATHS],
    pub path_count: usize,
    filters: [Filter; FILTERS],
    pub filter_count: usize,
}

impl Request {
    pub const NONE: Request = Request {
        paths: [Path { endpoint: None, cluster: None, attribute: None }; PATHS],
        path_count: 0,
        filters: [Filter { endpoint: 0, cluster: 0, version: 0 }; FILTERS],
        filter_count: 0,
    };

    /// A read request taken in place: success, or the status that refuses it.
    pub fn read(&mut self, payload: &[u8]) -> Read<u8> {
        let mut reader = Reader::message(payload)?;
        let mut seen = Seen::default();
        (self.path_count, self.filter_count) = (0, 0);
        while let Some(head) = reader.member(STRUCTURE)? {
            match head.tag {
                0 => {
                    seen.once(0)?;
                    hold(head.kind == ARRAY)?;
                    self.read_paths(&mut reader)?;
                }
                3 => {
                    seen.once(3)?;
                    head.flag()?;
                }
                4 => {
                    seen.once(4)?;
                    hold(head.kind == ARRAY)?;
                    self.read_filters(&mut reader)?;
                }
                REVISION => {
                    seen.once(REVISION_FIELD)?;
                    head.octet()?;
                }
                _ => reader.skip(&head, 0)?,
            }
        }
        seen.all(&[3, REVISION_FIELD])?;
        reader.ended()?;
        Ok(if self.path_count > PATHS {
            PATHS_EXHAUSTED
        } else if self.filter_count > FILTERS {
            RESOURCE_EXHAUSTED
        } else {
            SUCCESS
        })
    }

    /// Those past the limit are read and counted, but not kept.
    fn read_paths(&mut self, reader: &mut Reader) -> Read<()> {
        while let Some(head) = reader.member(ARRAY)? {
            hold(head.kind == LIST)?;
            let path = Path::read(reader, 2)?;
            hold(path.served())?;
            if let Some(room) = self.paths.get_mut(self.path_count) {
                *room = path;
            }
            self.path_count += 1;
        }
        Ok(())
    }

    fn read_filters(&mut self, reader: &mut Reader) -> Read<()> {
        while let Some(head) = reader.member(ARRAY)? {
            hold(head.kind == STRUCTURE)?;
            let filter = Filter::read(reader, 2)?;
            if let Some(room) = self.filters.get_mut(self.filter_count) {
                *room = filter;
            }
            self.filter_count += 1;
        }
        Ok(())
    }

    pub fn paths(&self) -> &[Path] {
        &self.paths[..self.path_count]
    }

    /// Filters name the cluster, and all of them carry its version.
    pub fn skips(&self, cluster: &Cluster, version: u32) -> bool {
        let mut named = false;
        for filter in &self.filters[..self.filter_count] {
            if filter.endpoint == cluster.endpoint && filter.cluster == cluster.id {
                if filter.version != version {
                    return false;
                }
                named = true;
            }
        }
        named
    }
}

/// A write action, read whole before anything is stored.
pub struct Write<'a> {
    entries: [Data<'a>; WRITES],
    count: usize,
    pub suppress: bool,
    timed: bool,
}

impl<'a> Write<'a> {
    pub const NONE: Write<'static> =
        Write { entries: [Data::NONE; WRITES], count: 0, suppress: false, timed: false };

    /// A write request taken in place: success, or the status that refuses it. Neither chunked nor empty ones are served.
    pub fn read(&mut self, payload: &'a [u8]) -> Read<u8> {
        let mut reader = Reader::message(payload)?;
        let mut seen = Seen::default();
        while let Some(head) = reader.member(STRUCTURE)? {
            match head.tag {
                0..=3 => seen.once(head.tag)?,
                REVISION => seen.once(REVISION_FIELD)?,
                _ => reader.skip(&head, 0)?,
            }
            match head.tag {
                0 => self.suppress = head.flag()?,
                1 => self.timed = head.flag()?,
                2 => {
                    hold(head.kind == ARRAY)?;
                    self.read_entries(&mut reader)?;
                }
                3 => hold(!head.flag()?)?,
                REVISION => {
                    head.octet()?;
                }
                _ => {}
            }
        }
        seen.all(&[0, 1, 2, REVISION_FIELD])?;
        reader.ended()?;
        hold(self.count > 0)?;
        Ok(if self.timed {
            TIMED_REQUEST_MISMATCH
        } else if self.count > WRITES {
            RESOURCE_EXHAUSTED
        } else {
            SUCCESS
        })
    }

    fn read_entries(&mut self, reader: &mut Reader<'a>) -> Read<()> {
        while let Some(head) = reader.member(ARRAY)? {
            hold(head.kind == STRUCTURE)?;
            let data = Data::read(reader, 2)?;
            if let Some(room) = self.entries.get_mut(self.count) {
                *room = data;
            }
            self.count += 1;
        }
        Ok(())
    }

    pub fn entries(&self) -> &[Data<'a>] {
        &self.entries[..self.count]
    }
}

/// A Status Response: its status.
pub fn status_response(payload: &[u8]) -> Read<u8> {
    let mut reader = Reader::message(payload)?;
    let (mut seen, mut status) = (Seen::default(), SUCCESS);
    while let Some(head) = reader.member(STRUCTURE)? {
        match head.tag {
            0 => {
                seen.once(0)?;
                status = head.octet()?;
            }
            REVISION => {
                seen.once(REVISION_FIELD)?;
                head.octet()?;
            }
            _ => reader.skip(&head, 0)?,
        }
    }
    seen.all(&[0, REVISION_FIELD])?;
    reader.ended()?;
    Ok(status)
}
