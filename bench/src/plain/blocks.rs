//! The information blocks that requests are made of. A block's reader is told how deep in the message its container stands.

use super::reader::*;

/// An attribute path; a part that is absent stands for any.
#[derive(Clone, Copy, Default)]
pub struct Path {
    pub endpoint: Option<u16>,
    pub cluster: Option<u32>,
    pub attribute: Option<u32>,
}

impl Path {
    pub fn exact(&self) -> Option<(u16, u32, u32)> {
        Some((self.endpoint?, self.cluster?, self.attribute?))
    }

    /// Node, list index and compression are not served.
    pub fn read(reader: &mut Reader, depth: usize) -> Read<Path> {
        let (mut path, mut seen) = (Path::default(), Seen::default());
        while let Some(head) = reader.member(LIST)? {
            match head.tag {
                0..=5 => seen.once(head.tag)?,
                _ => reader.skip(&head, depth)?,
            }
            match head.tag {
                0 => hold(!head.flag()?)?,
                2 => path.endpoint = Some(head.endpoint()?),
                3 => path.cluster = Some(head.id()?),
                4 => path.attribute = Some(head.id()?),
                1 | 5 => return Err(Malformed),
                _ => {}
            }
        }
        Ok(path)
    }

    /// An attribute named in any cluster must be a global one.
    pub fn served(&self) -> bool {
        let global = |id| (0xFFF8..=0xFFFD).contains(&id);
        self.cluster.is_some() || self.attribute.is_none_or(global)
    }
}

/// A cluster, and the version at which it is not wanted.
#[derive(Clone, Copy, Default)]
pub struct Filter {
    pub endpoint: u16,
    pub cluster: u32,
    pub version: u32,
}

impl Filter {
    pub fn read(reader: &mut Reader, depth: usize) -> Read<Filter> {
        let (mut filter, mut seen) = (Filter::default(), Seen::default());
        while let Some(head) = reader.member(STRUCTURE)? {
            match head.tag {
                0 => {
                    seen.once(0)?;
                    hold(head.kind == LIST)?;
                    filter.read_cluster(reader, depth + 1)?;
                }
                1 => {
                    seen.once(1)?;
                    filter.version = head.id()?;
                }
                _ => reader.skip(&head, depth)?,
            }
        }
        seen.all(&[0, 1])?;
        Ok(filter)
    }

    fn read_cluster(&mut self, reader: &mut Reader, depth: usize) -> Read<()> {
        let mut seen = Seen::default();
        while let Some(head) = reader.member(LIST)? {
            match head.tag {
                0 => return Err(Malformed),
                1 => {
                    seen.once(1)?;
                    self.endpoint = head.endpoint()?;
                }
                2 => {
                    seen.once(2)?;
                    self.cluster = head.id()?;
                }
                _ => reader.skip(&head, depth)?,
            }
        }
        seen.all(&[1, 2])
    }
}

/// One entry of a write, or a block of a report: an exact path, the version that is asked for or reported, and the value.
#[derive(Clone, Copy)]
pub struct Data<'a> {
    pub version: Option<u32>,
    pub path: (u16, u32, u32),
    pub value: Value<'a>,
}

impl<'a> Data<'a> {
    pub const NONE: Data<'static> = Data { version: None, path: (0, 0, 0), value: Value::Other };

    pub fn read(reader: &mut Reader<'a>, depth: usize) -> Read<Data<'a>> {
        let mut data = Data::NONE;
        data.fill(reader, depth)?;
        Ok(data)
    }

    /// Read where it is kept, and where nothing was before.
    pub fn fill(&mut self, reader: &mut Reader<'a>, depth: usize) -> Read<()> {
        let mut seen = Seen::default();
        while let Some(head) = reader.member(STRUCTURE)? {
            match head.tag {
                0 => {
                    seen.once(0)?;
                    self.version = Some(head.id()?);
                }
                1 => {
                    seen.once(1)?;
                    hold(head.kind == LIST)?;
                    let path = Path::read(reader, depth + 1)?;
                    self.path = path.exact().ok_or(Malformed)?;
                }
                2 => {
                    seen.once(2)?;
                    reader.skip(&head, depth)?;
                    self.value = head.value(reader.bytes);
                }
                _ => reader.skip(&head, depth)?,
            }
        }
        seen.all(&[1, 2])
    }
}
