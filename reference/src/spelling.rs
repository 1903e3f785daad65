//! The trees that we write: payloads and their blocks, fields in rising tag order
//! (RULES 4; Matter 10.5 and 10.6).

use crate::limits::REVISION;
use crate::paths::{ClusterPath, Path};
use crate::tlv::{Body, Element};
use crate::value::Value;

fn unsigned(tag: u8, number: u64) -> Element {
    Element::context(tag, Body::Unsigned(number))
}

fn flag(tag: u8, flag: bool) -> Element {
    Element::context(tag, Body::Bool(flag))
}

fn array(tag: u8, members: Vec<Element>) -> Element {
    Element::context(tag, Body::Array(members))
}

/// A whole payload: the fields and, last by its tag, the revision.
fn payload(mut fields: Vec<Element>) -> Element {
    fields.push(unsigned(0xFF, REVISION));
    Element::anonymous(Body::Structure(fields))
}

fn path_members(path: &Path) -> Vec<Element> {
    vec![
        unsigned(2, u64::from(path.endpoint)),
        unsigned(3, u64::from(path.cluster)),
        unsigned(4, u64::from(path.attribute)),
    ]
}

pub fn status_response(status: u8) -> Element {
    payload(vec![unsigned(0, u64::from(status))])
}

/// AttributeStatusIB's members.
fn status_members(path: &Path, status: u8) -> Vec<Element> {
    vec![
        Element::context(0, Body::List(path_members(path))),
        Element::context(1, Body::Structure(vec![unsigned(0, u64::from(status))])),
    ]
}

/// AttributeDataIB's members.
fn data_members(version: Option<u32>, path: &Path, value: &Value) -> Vec<Element> {
    let mut members: Vec<Element> =
        version.iter().map(|number| unsigned(0, u64::from(*number))).collect();
    members.push(Element::context(1, Body::List(path_members(path))));
    members.push(Element::context(2, value.body()));
    members
}

pub fn status_block(path: &Path, status: u8) -> Element {
    let inside = Element::context(0, Body::Structure(status_members(path, status)));
    Element::anonymous(Body::Structure(vec![inside]))
}

pub fn data_block(path: &Path, version: u32, value: &Value) -> Element {
    let members = data_members(Some(version), path, value);
    let inside = Element::context(1, Body::Structure(members));
    Element::anonymous(Body::Structure(vec![inside]))
}

/// The block array is left out when there is no block (RULES 5.1).
pub fn report(blocks: Vec<Element>, more: bool) -> Element {
    let mut fields = Vec::new();
    if !blocks.is_empty() {
        fields.push(array(1, blocks));
    }
    fields.push(flag(if more { 3 } else { 4 }, true));
    payload(fields)
}

pub fn write_response(statuses: &[(Path, u8)]) -> Element {
    let blocks = statuses
        .iter()
        .map(|(path, status)| Element::anonymous(Body::Structure(status_members(path, *status))))
        .collect();
    payload(vec![array(0, blocks)])
}

/// A path with parts left open where `None`.
pub fn open_path(endpoint: Option<u16>, cluster: Option<u32>, attribute: Option<u32>) -> Element {
    let mut members = Vec::new();
    members.extend(endpoint.map(|id| unsigned(2, u64::from(id))));
    members.extend(cluster.map(|id| unsigned(3, u64::from(id))));
    members.extend(attribute.map(|id| unsigned(4, u64::from(id))));
    Element::anonymous(Body::List(members))
}

pub fn filter(place: ClusterPath, version: u32) -> Element {
    let path = vec![unsigned(1, u64::from(place.0)), unsigned(2, u64::from(place.1))];
    Element::anonymous(Body::Structure(vec![
        Element::context(0, Body::List(path)),
        unsigned(1, u64::from(version)),
    ]))
}

/// No filter list if there is no filter (RULES 7.3).
pub fn read_request(paths: Vec<Element>, filters: Vec<Element>) -> Element {
    let mut fields = vec![array(0, paths), flag(3, false)];
    if !filters.is_empty() {
        fields.push(array(4, filters));
    }
    payload(fields)
}

pub fn write_entry(version: Option<u32>, path: &Path, value: &Value) -> Element {
    Element::anonymous(Body::Structure(data_members(version, path, value)))
}

pub fn write_request(suppress: bool, entries: Vec<Element>) -> Element {
    payload(vec![flag(0, suppress), flag(1, false), array(2, entries)])
}
