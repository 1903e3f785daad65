//! What a payload means: from the tree to requests, reports and statuses (Matter 10.5 and 10.6).
//! `None` is malformed throughout.

use crate::fields::Fields;
use crate::limits::{FILTERS, READ_PATHS, WRITES};
use crate::paths::{ClusterPath, Path, SpelledPath};
use crate::status::{INVALID_ACTION, PATHS_EXHAUSTED, RESOURCE_EXHAUSTED, TIMED_REQUEST_MISMATCH};
use crate::tlv::{read_payload, Body, Element};

const U8: u64 = u8::MAX as u64;
const U16: u64 = u16::MAX as u64;
const U32: u64 = u32::MAX as u64;
const REVISION: u8 = 0xFF;

/// The message's fields, with the revision that each message must carry.
fn message<'a>(members: &'a [Element], listed: &[u8]) -> Option<Fields<'a>> {
    let mut all = listed.to_vec();
    all.push(REVISION);
    let fields = Fields::pick(members, &all)?;
    fields.unsigned(REVISION, U8)??;
    Some(fields)
}

fn structure(element: &Element) -> Option<&[Element]> {
    match &element.body {
        Body::Structure(members) => Some(members),
        _ => None,
    }
}

fn list(element: &Element) -> Option<&[Element]> {
    match &element.body {
        Body::List(members) => Some(members),
        _ => None,
    }
}

/// StatusResponseMessage (Matter 10.6.1): its status.
pub fn status_response(payload: &[u8]) -> Option<u8> {
    let members = read_payload(payload)?;
    let fields = message(&members, &[0])?;
    fields.unsigned(0, U8)??.try_into().ok()
}

/// DataVersionFilterIB (Matter 10.5.3).
#[derive(Clone, Debug, PartialEq)]
pub struct Filter {
    pub place: ClusterPath,
    pub version: u32,
    pub node: bool,
}

impl Filter {
    fn read(element: &Element) -> Option<Filter> {
        let fields = Fields::pick(structure(element)?, &[0, 1])?;
        let path = Fields::pick(fields.list(0)??, &[0, 1, 2])?;
        path.unsigned(0, u64::MAX)?;
        let endpoint = path.unsigned(1, U16)?? as u16;
        let cluster = path.unsigned(2, U32)?? as u32;
        Some(Filter {
            place: (endpoint, cluster),
            version: fields.unsigned(1, U32)?? as u32,
            node: path.has(0),
        })
    }
}

/// ReadRequestMessage (Matter 10.6.2). Event tags count as unlisted; FabricFiltered is required and
/// changes nothing.
#[derive(Clone, Debug, PartialEq)]
pub struct ReadRequest {
    pub paths: Vec<SpelledPath>,
    pub filters: Vec<Filter>,
}

impl ReadRequest {
    fn read(payload: &[u8]) -> Option<ReadRequest> {
        let members = read_payload(payload)?;
        let fields = message(&members, &[0, 3, 4])?;
        fields.flag(3)??;
        let paths = fields.array(0)?.unwrap_or(&[]);
        let filters = fields.array(4)?.unwrap_or(&[]);
        Some(ReadRequest {
            paths: paths.iter().map(|one| SpelledPath::read(list(one)?)).collect::<Option<_>>()?,
            filters: filters.iter().map(Filter::read).collect::<Option<_>>()?,
        })
    }

    /// The request, or the status that refuses it whole, in the order 80, C8, 89.
    pub fn accept(payload: &[u8]) -> Result<ReadRequest, u8> {
        let request = ReadRequest::read(payload).ok_or(INVALID_ACTION)?;
        let refused = request.paths.iter().any(SpelledPath::is_refused)
            || request.filters.iter().any(|filter| filter.node);
        if refused {
            return Err(INVALID_ACTION);
        }
        if request.paths.len() > READ_PATHS {
            return Err(PATHS_EXHAUSTED);
        }
        if request.filters.len() > FILTERS {
            return Err(RESOURCE_EXHAUSTED);
        }
        Ok(request)
    }
}

/// AttributeDataIB (Matter 10.5.4): an entry of a write, or a block of a report.
#[derive(Clone, Debug, PartialEq)]
pub struct Data {
    pub version: Option<u32>,
    pub path: SpelledPath,
    pub data: Body,
}

impl Data {
    fn read(members: &[Element]) -> Option<Data> {
        let fields = Fields::pick(members, &[0, 1, 2])?;
        Some(Data {
            version: fields.unsigned(0, U32)?.map(|number| number as u32),
            path: SpelledPath::read(fields.list(1)??)?,
            data: fields.get(2)?.clone(),
        })
    }
}

/// One entry of a write that was accepted: its path is concrete.
#[derive(Clone, Debug, PartialEq)]
pub struct WriteEntry {
    pub version: Option<u32>,
    pub path: Path,
    pub data: Body,
}

/// WriteRequestMessage (Matter 10.6.6).
#[derive(Clone, Debug, PartialEq)]
pub struct WriteRequest {
    pub suppress: bool,
    pub entries: Vec<WriteEntry>,
}

impl WriteRequest {
    /// The request, or the status that refuses it whole, in the order 80, C9, 89.
    pub fn accept(payload: &[u8]) -> Result<WriteRequest, u8> {
        let (request, timed) = WriteRequest::read(payload).ok_or(INVALID_ACTION)?;
        if timed {
            return Err(TIMED_REQUEST_MISMATCH);
        }
        if request.entries.len() > WRITES {
            return Err(RESOURCE_EXHAUSTED);
        }
        Ok(request)
    }

    /// Here `None` is every ground for 80: malformed, chunked, empty, or a path that is refused
    /// or lacks a part.
    fn read(payload: &[u8]) -> Option<(WriteRequest, bool)> {
        let members = read_payload(payload)?;
        let fields = message(&members, &[0, 1, 2, 3])?;
        let suppress = fields.flag(0)??;
        let timed = fields.flag(1)??;
        let chunked = fields.flag(3)?.unwrap_or(false);
        let blocks = fields.array(2)??;
        if chunked || blocks.is_empty() {
            return None;
        }
        let entries = blocks.iter().map(WriteRequest::entry).collect::<Option<_>>()?;
        Some((WriteRequest { suppress, entries }, timed))
    }

    fn entry(element: &Element) -> Option<WriteEntry> {
        let Data { version, path, data } = Data::read(structure(element)?)?;
        if path.is_refused() {
            return None;
        }
        Some(WriteEntry { version, path: path.concrete()?, data })
    }
}

/// AttributeStatusIB (Matter 10.5.16): the path and its status code.
fn attribute_status(members: &[Element]) -> Option<(SpelledPath, u8)> {
    let fields = Fields::pick(members, &[0, 1])?;
    let path = SpelledPath::read(fields.list(0)??)?;
    let status = Fields::pick(fields.structure(1)??, &[0, 1])?;
    status.unsigned(1, U8)?; // ClusterStatus: listed, optional
    Some((path, status.unsigned(0, U8)?? as u8))
}

/// AttributeReportIB (Matter 10.5.5): status or data, not both.
#[derive(Clone, Debug, PartialEq)]
pub enum ReportBlock {
    Status,
    Data(Data),
}

impl ReportBlock {
    fn read(element: &Element) -> Option<ReportBlock> {
        let fields = Fields::pick(structure(element)?, &[0, 1])?;
        match (fields.structure(0)?, fields.structure(1)?) {
            (Some(status), None) => attribute_status(status).map(|_| ReportBlock::Status),
            (None, Some(data)) => Data::read(data).map(ReportBlock::Data),
            _ => None,
        }
    }
}

/// ReportDataMessage (Matter 10.6.3).
#[derive(Clone, Debug, PartialEq)]
pub struct Report {
    pub blocks: Vec<ReportBlock>,
    pub more: bool,
}

impl Report {
    pub fn read(payload: &[u8]) -> Option<Report> {
        let members = read_payload(payload)?;
        let fields = message(&members, &[0, 1, 3, 4])?;
        fields.unsigned(0, U32)?; // SubscriptionID: listed, optional
        fields.flag(4)?; // SuppressResponse: listed, optional
        let blocks = fields.array(1)?.unwrap_or(&[]);
        Some(Report {
            blocks: blocks.iter().map(ReportBlock::read).collect::<Option<_>>()?,
            more: fields.flag(3)?.unwrap_or(false),
        })
    }
}

/// WriteResponseMessage (Matter 10.6.7): a path and a status for each entry.
pub fn write_response(payload: &[u8]) -> Option<Vec<(SpelledPath, u8)>> {
    let members = read_payload(payload)?;
    let fields = message(&members, &[0])?;
    let blocks = fields.array(0)??;
    blocks.iter().map(|block| attribute_status(structure(block)?)).collect()
}
