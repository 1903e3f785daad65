//! A sign's plan and what it must obey (RULES 2; refusal 11).

use crate::acl::is_privilege;
use crate::limits::{ATTRIBUTES, CLUSTERS, ENDPOINTS};
use crate::paths::{ClusterPath, Path};
use crate::status::{SUCCESS, UNSUPPORTED_ATTRIBUTE, UNSUPPORTED_CLUSTER, UNSUPPORTED_ENDPOINT};
use crate::value::{judge, Kind, Value};

#[derive(Clone, Debug, PartialEq, Eq)]
pub struct Cluster {
    pub place: ClusterPath,
    pub version: u32,
}

#[derive(Clone, Debug, PartialEq, Eq)]
pub struct Attribute {
    pub path: Path,
    /// The privilege that reading needs; `None`: not readable.
    pub read: Option<u8>,
    /// The privilege that writing needs; `None`: not writable.
    pub write: Option<u8>,
    pub nullable: bool,
    pub kind: Kind,
    pub first: Value,
}

#[derive(Clone, Debug, Default, PartialEq, Eq)]
pub struct Schema {
    pub subject: u64,
    pub clusters: Vec<Cluster>,
    pub attributes: Vec<Attribute>,
}

impl Schema {
    pub fn sound(&self) -> bool {
        self.clusters.len() <= CLUSTERS
            && self.attributes.len() <= ATTRIBUTES
            && self.endpoints() <= ENDPOINTS
            && self.clusters.windows(2).all(|two| two[0].place < two[1].place)
            && self.attributes.windows(2).all(|two| two[0].path < two[1].path)
            && self.attributes.iter().all(|attribute| self.attribute_sound(attribute))
    }

    fn endpoints(&self) -> usize {
        let mut ids: Vec<u16> = self.clusters.iter().map(|cluster| cluster.place.0).collect();
        ids.sort_unstable();
        ids.dedup();
        ids.len()
    }

    /// Every first value is one that the limits allow, never null. A lowest above its highest
    /// leaves no such value, so it needs no test of its own.
    fn attribute_sound(&self, attribute: &Attribute) -> bool {
        let finite = match (&attribute.kind, &attribute.first) {
            (Kind::Float { lowest, highest }, Value::Float(first)) => {
                [lowest, highest, first].iter().all(|bits| f32::from_bits(**bits).is_finite())
            }
            _ => true,
        };
        finite
            && self.clusters.iter().any(|cluster| cluster.place == attribute.path.place())
            && attribute.read.is_none_or(is_privilege)
            && attribute.write.is_none_or(is_privilege)
            && judge(&attribute.kind, false, &attribute.first) == SUCCESS
    }

    /// The attribute at a path, or 7F, C3 or 86, the first that applies. An endpoint exists
    /// exactly if a cluster stands on it; a cluster may have no attribute.
    pub fn find(&self, path: &Path) -> Result<&Attribute, u8> {
        if !self.clusters.iter().any(|cluster| cluster.place.0 == path.endpoint) {
            return Err(UNSUPPORTED_ENDPOINT);
        }
        if !self.clusters.iter().any(|cluster| cluster.place == path.place()) {
            return Err(UNSUPPORTED_CLUSTER);
        }
        // Exactly this path, never the nearest one (RULES 9.1).
        let found = self.attributes.iter().find(|attribute| attribute.path == *path);
        found.ok_or(UNSUPPORTED_ATTRIBUTE)
    }
}
