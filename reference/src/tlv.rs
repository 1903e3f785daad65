//! TLV as Appendix A tells it: bytes to a tree of elements and back. No word of Matter's messages.

use crate::limits::DEPTH;

#[derive(Clone, Debug, PartialEq)]
pub enum Tag {
    Anonymous,
    Context(u8),
    /// Common, implicit and fully qualified profile tags: the form (2 to 7) and its bytes as they
    /// came. Nothing here ever asks what they say (RULES 4.10: walked and ignored).
    Profile(u8, Vec<u8>),
}

#[derive(Clone, Debug, PartialEq)]
pub enum Body {
    Signed(i64),
    Unsigned(u64),
    Bool(bool),
    /// The 32 bits, so that NaN patterns and -0.0 survive.
    Float(u32),
    Double(u64),
    /// Kept as bytes: whether they are UTF-8 is asked where a text is wanted.
    Text(Vec<u8>),
    Bytes(Vec<u8>),
    Null,
    Structure(Vec<Element>),
    Array(Vec<Element>),
    List(Vec<Element>),
}

#[derive(Clone, Debug, PartialEq)]
pub struct Element {
    pub tag: Tag,
    pub body: Body,
}

impl Element {
    pub fn new(tag: Tag, body: Body) -> Element {
        Element { tag, body }
    }

    pub fn context(tag: u8, body: Body) -> Element {
        Element::new(Tag::Context(tag), body)
    }

    pub fn anonymous(body: Body) -> Element {
        Element::new(Tag::Anonymous, body)
    }
}

const END: u8 = 0x18;

/// How many bytes follow the control octet for each of the eight tag forms.
const TAG_BYTES: [usize; 8] = [0, 1, 2, 4, 2, 4, 6, 8];

struct Reader<'a> {
    bytes: &'a [u8],
    at: usize,
}

/// Reads exactly one element with nothing after it; `None` is malformed.
pub fn read(bytes: &[u8]) -> Option<Element> {
    let mut reader = Reader { bytes, at: 0 };
    let element = reader.element(DEPTH)??;
    if reader.at == bytes.len() {
        Some(element)
    } else {
        None
    }
}

/// The members of the one untagged structure that a payload has to be (RULES 4.13).
pub fn read_payload(bytes: &[u8]) -> Option<Vec<Element>> {
    match read(bytes)? {
        Element { tag: Tag::Anonymous, body: Body::Structure(members) } => Some(members),
        _ => None,
    }
}

impl Reader<'_> {
    fn take(&mut self, count: usize) -> Option<&[u8]> {
        let end = self.at.checked_add(count)?;
        let part = self.bytes.get(self.at..end)?;
        self.at = end;
        Some(part)
    }

    fn number(&mut self, width: usize) -> Option<u64> {
        let bytes = self.take(width)?;
        Some(bytes.iter().rev().fold(0, |sum, byte| sum << 8 | u64::from(*byte)))
    }

    /// An element, or `Some(None)` at the end of a container. `depth` is how many containers may
    /// still be opened, one inside the other.
    fn element(&mut self, depth: usize) -> Option<Option<Element>> {
        let control = self.number(1)? as u8;
        let (form, kind) = (control >> 5, control & 0x1F);
        if kind == END {
            // A tagged end is malformed.
            return if form == 0 { Some(None) } else { None };
        }
        let tag = self.tag(form)?;
        let body = self.body(kind, depth)?;
        Some(Some(Element { tag, body }))
    }

    fn tag(&mut self, form: u8) -> Option<Tag> {
        let bytes = self.take(TAG_BYTES[form as usize])?;
        Some(match form {
            0 => Tag::Anonymous,
            1 => Tag::Context(bytes[0]),
            _ => Tag::Profile(form, bytes.to_vec()),
        })
    }

    fn body(&mut self, kind: u8, depth: usize) -> Option<Body> {
        let width = 1usize << (kind & 3);
        Some(match kind {
            0x00..=0x03 => Body::Signed(sign_extend(self.number(width)?, width)),
            0x04..=0x07 => Body::Unsigned(self.number(width)?),
            0x08 => Body::Bool(false),
            0x09 => Body::Bool(true),
            0x0A => Body::Float(self.number(4)? as u32),
            0x0B => Body::Double(self.number(8)?),
            0x0C..=0x0F => Body::Text(self.string(width)?),
            0x10..=0x13 => Body::Bytes(self.string(width)?),
            0x14 => Body::Null,
            0x15 => Body::Structure(self.members(depth, |tag| *tag != Tag::Anonymous)?),
            0x16 => Body::Array(self.members(depth, |tag| *tag == Tag::Anonymous)?),
            0x17 => Body::List(self.members(depth, |_| true)?),
            _ => return None, // reserved
        })
    }

    fn string(&mut self, width: usize) -> Option<Vec<u8>> {
        let length = usize::try_from(self.number(width)?).ok()?;
        Some(self.take(length)?.to_vec())
    }

    fn members(&mut self, depth: usize, allowed: fn(&Tag) -> bool) -> Option<Vec<Element>> {
        let inside = depth.checked_sub(1)?;
        let mut members = Vec::new();
        while let Some(member) = self.element(inside)? {
            if !allowed(&member.tag) {
                return None;
            }
            members.push(member);
        }
        Some(members)
    }
}

fn sign_extend(number: u64, width: usize) -> i64 {
    let unused = 64 - 8 * width as u32;
    ((number << unused) as i64) >> unused
}

/// Chooses a width in bytes (1, 2, 4 or 8) that is no less than the least one.
pub trait Widths {
    fn choose(&mut self, least: usize) -> usize;
}

/// What we write ourselves: the least width (RULES 4.3).
pub struct Least;

impl Widths for Least {
    fn choose(&mut self, least: usize) -> usize {
        least
    }
}

pub fn write(element: &Element) -> Vec<u8> {
    let mut out = Vec::new();
    write_with(element, &mut Least, &mut out);
    out
}

/// Writes an element with widths that another hand may choose. It writes what it is given, a
/// tagged array member too: the generator wants such bytes.
pub fn write_with(element: &Element, widths: &mut dyn Widths, out: &mut Vec<u8>) {
    match &element.body {
        Body::Signed(number) => {
            let width = widths.choose(signed_width(*number));
            head(&element.tag, width.trailing_zeros() as u8, out);
            out.extend(&number.to_le_bytes()[..width]);
        }
        Body::Unsigned(number) => {
            let width = widths.choose(unsigned_width(*number));
            head(&element.tag, 0x04 + width.trailing_zeros() as u8, out);
            out.extend(&number.to_le_bytes()[..width]);
        }
        Body::Bool(flag) => head(&element.tag, 0x08 + u8::from(*flag), out),
        Body::Float(bits) => {
            head(&element.tag, 0x0A, out);
            out.extend(bits.to_le_bytes());
        }
        Body::Double(bits) => {
            head(&element.tag, 0x0B, out);
            out.extend(bits.to_le_bytes());
        }
        Body::Text(bytes) => string(&element.tag, 0x0C, bytes, widths, out),
        Body::Bytes(bytes) => string(&element.tag, 0x10, bytes, widths, out),
        Body::Null => head(&element.tag, 0x14, out),
        Body::Structure(members) => container(&element.tag, 0x15, members, widths, out),
        Body::Array(members) => container(&element.tag, 0x16, members, widths, out),
        Body::List(members) => container(&element.tag, 0x17, members, widths, out),
    }
}

fn head(tag: &Tag, kind: u8, out: &mut Vec<u8>) {
    match tag {
        Tag::Anonymous => out.push(kind),
        Tag::Context(number) => out.extend([0x20 | kind, *number]),
        Tag::Profile(form, bytes) => {
            out.push(form << 5 | kind);
            out.extend(bytes);
        }
    }
}

fn string(tag: &Tag, kind: u8, bytes: &[u8], widths: &mut dyn Widths, out: &mut Vec<u8>) {
    let length = bytes.len() as u64;
    let width = widths.choose(unsigned_width(length));
    head(tag, kind + width.trailing_zeros() as u8, out);
    out.extend(&length.to_le_bytes()[..width]);
    out.extend(bytes);
}

fn container(tag: &Tag, kind: u8, members: &[Element], widths: &mut dyn Widths, out: &mut Vec<u8>) {
    head(tag, kind, out);
    for member in members {
        write_with(member, widths, out);
    }
    out.push(END);
}

fn unsigned_width(number: u64) -> usize {
    match number {
        0..=0xFF => 1,
        0x100..=0xFFFF => 2,
        0x1_0000..=0xFFFF_FFFF => 4,
        _ => 8,
    }
}

fn signed_width(number: i64) -> usize {
    if i8::try_from(number).is_ok() {
        1
    } else if i16::try_from(number).is_ok() {
        2
    } else if i32::try_from(number).is_ok() {
        4
    } else {
        8
    }
}
