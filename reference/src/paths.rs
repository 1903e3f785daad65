//! Attribute paths: concrete ones, and those of a message with parts left open (Matter 10.5.2).

use crate::fields::Fields;
use crate::tlv::{Body, Element};

/// A concrete path. The derived order is the schema's: endpoint, cluster, attribute.
#[derive(Clone, Copy, Debug, PartialEq, Eq, PartialOrd, Ord)]
pub struct Path {
    pub endpoint: u16,
    pub cluster: u32,
    pub attribute: u32,
}

impl Path {
    pub fn place(&self) -> ClusterPath {
        (self.endpoint, self.cluster)
    }
}

pub type ClusterPath = (u16, u32);

/// A path as a message spells it.
#[derive(Clone, Debug, PartialEq)]
pub struct SpelledPath {
    pub compressed: bool,
    pub node: bool,
    pub endpoint: Option<u16>,
    pub cluster: Option<u32>,
    pub attribute: Option<u32>,
    pub list_index: bool,
}

impl SpelledPath {
    pub fn read(members: &[Element]) -> Option<SpelledPath> {
        let fields = Fields::pick(members, &[0, 1, 2, 3, 4, 5])?;
        fields.unsigned(1, u64::MAX)?;
        let index_fits = match fields.get(5) {
            None | Some(Body::Null) => true,
            Some(_) => fields.unsigned(5, u64::from(u16::MAX))?.is_some(),
        };
        if !index_fits {
            return None;
        }
        Some(SpelledPath {
            compressed: fields.flag(0)?.unwrap_or(false),
            node: fields.has(1),
            endpoint: fields.unsigned(2, u64::from(u16::MAX))?.map(|n| n as u16),
            cluster: fields.unsigned(3, u64::from(u32::MAX))?.map(|n| n as u32),
            attribute: fields.unsigned(4, u64::from(u32::MAX))?.map(|n| n as u32),
            list_index: fields.has(5),
        })
    }

    /// Forms that get 80 wherever they stand: Node, ListIndex, compression, and a cluster left
    /// open while a named attribute is not a global one (RULES 6.11).
    pub fn is_refused(&self) -> bool {
        let names_one = matches!(self.attribute, Some(id) if !(0xFFF8..=0xFFFD).contains(&id));
        self.node || self.list_index || self.compressed || (self.cluster.is_none() && names_one)
    }

    pub fn concrete(&self) -> Option<Path> {
        Some(Path { endpoint: self.endpoint?, cluster: self.cluster?, attribute: self.attribute? })
    }

    /// A part left open covers everything in its place (chapter 8, Wildcard Path).
    pub fn covers(&self, path: &Path) -> bool {
        self.endpoint.is_none_or(|id| id == path.endpoint)
            && self.cluster.is_none_or(|id| id == path.cluster)
            && self.attribute.is_none_or(|id| id == path.attribute)
    }
}
