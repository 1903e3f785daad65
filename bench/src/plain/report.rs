//! One part of a report: one walk of the schema from the place reached on, each block written where the reply is kept.

use super::access::level;
use super::blocks::Path;
use super::reader::END;
use super::requests::Request;
use super::status::{UNSUPPORTED_ACCESS, UNSUPPORTED_READ};
use super::values::Values;
use super::writer::Writer;
use super::{Lent, MESSAGE};

/// Blocks end here at the latest: what closes the report takes seven bytes.
const BLOCKS_END: usize = MESSAGE - 7;

/// Where a read goes on: a path of the request, and an index in the schema.
#[derive(Clone, Copy)]
pub struct Place {
    pub path: usize,
    pub index: usize,
}

/// What a part is made from.
pub struct Source<'a> {
    pub lent: Lent<'a>,
    pub edits: &'a [u8],
    pub values: &'a Values,
    pub request: &'a Request,
}

impl Source<'_> {
    /// As many blocks as there is room for; the place moves past the last. Whether a further one would follow.
    pub fn put_blocks(&self, place: &mut Place, writer: &mut Writer) -> bool {
        let Place { mut path, mut index } = *place;
        while let Some(asked) = self.request.paths().get(path) {
            let full = match asked.exact() {
                Some(exact) => index == 0 && self.put_exact(exact, path, place, writer),
                None => self.put_matching(asked, path, index, place, writer),
            };
            if full {
                return true;
            }
            (path, index) = (path + 1, 0);
        }
        false
    }

    /// The blocks of a wildcard path from an index on; what holds for a whole cluster is asked once a cluster. Whether there was no room for one.
    #[inline]
    fn put_matching(
        &self,
        asked: &Path,
        path: usize,
        from: usize,
        place: &mut Place,
        writer: &mut Writer,
    ) -> bool {
        let schema = self.lent.schema;
        let (mut current, mut granted) = (None, 0);
        for (index, attribute) in schema.attributes.iter().enumerate().skip(from) {
            let cluster = schema.cluster_of(attribute);
            if current != Some(attribute.cluster) {
                current = Some(attribute.cluster);
                granted = self.granted(asked, attribute.cluster.into());
            }
            let named = asked.attribute.is_none_or(|id| id == attribute.id);
            if !named || attribute.read == 0 || attribute.read > granted {
                continue;
            }
            let start = writer.at;
            let version = self.values.versions[usize::from(attribute.cluster)];
            let value = self.values.value(schema, self.edits, index);
            writer.data_block(version, (cluster.endpoint, cluster.id, attribute.id), &value);
            if writer.at > BLOCKS_END {
                writer.at = start;
                return true;
            }
            *place = Place { path, index: index + 1 };
        }
        false
    }

    /// The privilege for what is asked in a cluster: none where it is not asked for, or filtered out.
    fn granted(&self, asked: &Path, k: usize) -> u8 {
        let cluster = &self.lent.schema.clusters[k];
        let wanted = asked.endpoint.is_none_or(|id| id == cluster.endpoint)
            && asked.cluster.is_none_or(|id| id == cluster.id)
            && !self.request.skips(cluster, self.values.versions[k]);
        if wanted {
            level(self.lent.table, self.lent.subject, cluster)
        } else {
            0
        }
    }

    /// The one block of an exact path, if it gets one. Whether there was no room for it.
    fn put_exact(
        &self,
        exact: (u16, u32, u32),
        path: usize,
        place: &mut Place,
        writer: &mut Writer,
    ) -> bool {
        let (schema, start) = (self.lent.schema, writer.at);
        match self.readable(exact) {
            Ok(i) => {
                let attribute = &schema.attributes[i];
                let version = self.values.versions[usize::from(attribute.cluster)];
                if self.request.skips(schema.cluster_of(attribute), version) {
                    return false;
                }
                writer.data_block(version, exact, &self.values.value(schema, self.edits, i));
            }
            Err(status) => writer.status_block(exact, status),
        }
        if writer.at > BLOCKS_END {
            writer.at = start;
            return true;
        }
        *place = Place { path, index: 1 };
        false
    }

    fn readable(&self, exact: (u16, u32, u32)) -> Result<usize, u8> {
        let Lent { schema, table, subject } = self.lent;
        let i = schema.locate(exact)?;
        let attribute = &schema.attributes[i];
        if attribute.read == 0 {
            return Err(UNSUPPORTED_READ);
        }
        if attribute.read > level(table, subject, schema.cluster_of(attribute)) {
            return Err(UNSUPPORTED_ACCESS);
        }
        Ok(i)
    }
}

/// A part's message: from its blocks to its end, and whether it promises more.
pub fn put_report(source: &Source, place: &mut Place, mut writer: Writer) -> (usize, bool) {
    let opened = writer.at;
    writer.put([0x36, 1]);
    let blocks = writer.at;
    let more = source.put_blocks(place, &mut writer);
    if writer.at == blocks {
        writer.at = opened;
    } else {
        writer.put([END]);
    }
    writer.put([0x29, if more { 3 } else { 4 }]);
    (writer.finish(), more)
}
