//! Matter TLV, written: numbers and lengths in the least width.

use super::reader::{Value, END};
use super::MESSAGE;

/// A block is written before it is known to fit.
pub const ROOM: usize = MESSAGE + 256;
/// What ends each message: revision 10, and the end of its structure.
const REVISION: [u8; 4] = [0x24, 0xFF, 10, END];

pub struct Writer<'a> {
    bytes: &'a mut [u8; ROOM],
    pub at: usize,
}

impl<'a> Writer<'a> {
    /// A message from its envelope to the opening of its structure.
    pub fn message(bytes: &'a mut [u8; ROOM], opcode: u8, exchange: u64, turn: u16) -> Writer<'a> {
        let mut writer = Writer { bytes, at: 0 };
        let word = u64::from(opcode) << 56 | exchange << 16 | u64::from(turn);
        writer.put(word.to_be_bytes());
        writer.put([0x15]);
        writer
    }

    /// The message's end: its length.
    pub fn finish(mut self) -> usize {
        self.put(REVISION);
        self.at
    }

    #[inline]
    pub fn put<const N: usize>(&mut self, bytes: [u8; N]) {
        self.bytes[self.at..self.at + N].copy_from_slice(&bytes);
        self.at += N;
    }

    /// Always inlined: the width is known at most calls, and by itself the compiler leaves a call, which makes a read half as long again. The feature
    /// `untuned` leaves it to the compiler.
    #[cfg_attr(feature = "untuned", inline)]
    #[cfg_attr(not(feature = "untuned"), inline(always))]
    fn numbered(&mut self, kind: u8, tag: u8, number: u64, width: u8) {
        let control = 0x20 + kind + width;
        let [a, b, c, d, e, f, g, h] = number.to_le_bytes();
        match width {
            0 => self.put([control, tag, a]),
            1 => self.put([control, tag, a, b]),
            2 => self.put([control, tag, a, b, c, d]),
            _ => self.put([control, tag, a, b, c, d, e, f, g, h]),
        }
    }

    #[inline]
    pub fn unsigned(&mut self, tag: u8, number: u64) {
        let width = match number {
            0..0x100 => 0,
            0x100..0x1_0000 => 1,
            0x1_0000..0x1_0000_0000 => 2,
            _ => 3,
        };
        self.numbered(4, tag, number, width);
    }

    #[inline]
    fn signed(&mut self, tag: u8, number: i64) {
        let width = if number == i64::from(number as i8) {
            0
        } else if number == i64::from(number as i16) {
            1
        } else if number == i64::from(number as i32) {
            2
        } else {
            3
        };
        self.numbered(0, tag, number as u64, width);
    }

    /// No text is longer than one byte can say.
    #[inline]
    fn text(&mut self, tag: u8, text: &[u8]) {
        self.put([0x2C, tag, text.len() as u8]);
        self.bytes[self.at..self.at + text.len()].copy_from_slice(text);
        self.at += text.len();
    }

    /// Always inlined too: a panel's write would make it a call in each block of a sign's report.
    #[inline(always)]
    fn value(&mut self, tag: u8, value: &Value) {
        match *value {
            Value::Null => self.put([0x34, tag]),
            Value::Bool(flag) => self.put([0x28 + u8::from(flag), tag]),
            Value::Unsigned(number) => self.unsigned(tag, number),
            Value::Signed(number) => self.signed(tag, number),
            Value::Float(bits) => {
                let [a, b, c, d] = bits.to_le_bytes();
                self.put([0x2A, tag, a, b, c, d]);
            }
            Value::Text(text) => self.text(tag, text),
            Value::Other => {}
        }
    }

    #[inline]
    fn path(&mut self, tag: u8, (endpoint, cluster, attribute): (u16, u32, u32)) {
        self.put([0x37, tag]);
        self.unsigned(2, endpoint.into());
        self.unsigned(3, cluster.into());
        self.unsigned(4, attribute.into());
        self.put([END]);
    }

    /// A report's block with a value.
    #[inline]
    pub fn data_block(&mut self, version: u32, path: (u16, u32, u32), value: &Value) {
        self.put([0x15, 0x35, 1]);
        self.unsigned(0, version.into());
        self.path(1, path);
        self.value(2, value);
        self.put([END, END]);
    }

    /// The one entry of a panel's write.
    pub fn write_entry(&mut self, version: Option<u32>, path: (u16, u32, u32), value: &Value) {
        self.put([0x15]);
        if let Some(version) = version {
            self.unsigned(0, version.into());
        }
        self.path(1, path);
        self.value(2, value);
        self.put([END]);
    }

    /// A read's filter: a cluster, and the version at which it is not wanted.
    pub fn filter(&mut self, (endpoint, cluster): (u16, u32), version: u32) {
        self.put([0x15, 0x37, 0]);
        self.unsigned(1, endpoint.into());
        self.unsigned(2, cluster.into());
        self.put([END]);
        self.unsigned(1, version.into());
        self.put([END]);
    }

    /// A report's block with a status.
    pub fn status_block(&mut self, path: (u16, u32, u32), status: u8) {
        self.put([0x15, 0x35, 0]);
        self.status_fields(path, status);
        self.put([END, END]);
    }

    /// A write response's block.
    pub fn status(&mut self, path: (u16, u32, u32), status: u8) {
        self.put([0x15]);
        self.status_fields(path, status);
        self.put([END]);
    }

    fn status_fields(&mut self, path: (u16, u32, u32), status: u8) {
        self.path(0, path);
        self.put([0x35, 1, 0x24, 0, status, END]);
    }
}
