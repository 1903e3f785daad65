//! Picking listed fields out of a container's members. A listed tag twice is malformed, an
//! unlisted one is ignored (RULES 4.10; Matter 10.2.2).

use crate::tlv::{Body, Element, Tag};

/// The bodies found under the listed context tags.
pub struct Fields<'a> {
    found: Vec<(u8, &'a Body)>,
}

impl<'a> Fields<'a> {
    pub fn pick(members: &'a [Element], listed: &[u8]) -> Option<Fields<'a>> {
        let mut found: Vec<(u8, &Body)> = Vec::new();
        for member in members {
            let Tag::Context(tag) = member.tag else { continue };
            if !listed.contains(&tag) {
                continue;
            }
            if found.iter().any(|(seen, _)| *seen == tag) {
                return None;
            }
            found.push((tag, &member.body));
        }
        Some(Fields { found })
    }

    pub fn get(&self, tag: u8) -> Option<&'a Body> {
        self.found.iter().find(|(seen, _)| *seen == tag).map(|(_, body)| *body)
    }

    pub fn has(&self, tag: u8) -> bool {
        self.get(tag).is_some()
    }

    /// The outer `None` is malformed, the inner one an absent field; so in each function below.
    pub fn unsigned(&self, tag: u8, highest: u64) -> Option<Option<u64>> {
        match self.get(tag) {
            None => Some(None),
            Some(Body::Unsigned(number)) if *number <= highest => Some(Some(*number)),
            Some(_) => None,
        }
    }

    pub fn flag(&self, tag: u8) -> Option<Option<bool>> {
        match self.get(tag) {
            None => Some(None),
            Some(Body::Bool(flag)) => Some(Some(*flag)),
            Some(_) => None,
        }
    }

    pub fn structure(&self, tag: u8) -> Option<Option<&'a [Element]>> {
        match self.get(tag) {
            None => Some(None),
            Some(Body::Structure(members)) => Some(Some(members)),
            Some(_) => None,
        }
    }

    pub fn list(&self, tag: u8) -> Option<Option<&'a [Element]>> {
        match self.get(tag) {
            None => Some(None),
            Some(Body::List(members)) => Some(Some(members)),
            Some(_) => None,
        }
    }

    pub fn array(&self, tag: u8) -> Option<Option<&'a [Element]>> {
        match self.get(tag) {
            None => Some(None),
            Some(Body::Array(members)) => Some(Some(members)),
            Some(_) => None,
        }
    }
}
