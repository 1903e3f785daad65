//! Values, kinds and limits (RULES 2).

use crate::limits::TEXT;
use crate::status::{CONSTRAINT_ERROR, INVALID_DATA_TYPE, SUCCESS};
use crate::tlv::Body;

#[derive(Clone, Debug, PartialEq, Eq)]
pub enum Value {
    Null,
    Bool(bool),
    Unsigned(u64),
    Signed(i64),
    /// Its bits: two floats differ exactly if their bits do (RULES 2.24).
    Float(u32),
    Text(Vec<u8>),
}

impl Value {
    /// The value that an element carries, if it is null or of one of the five kinds.
    pub fn of(body: &Body) -> Option<Value> {
        Some(match body {
            Body::Null => Value::Null,
            Body::Bool(flag) => Value::Bool(*flag),
            Body::Unsigned(number) => Value::Unsigned(*number),
            Body::Signed(number) => Value::Signed(*number),
            Body::Float(bits) => Value::Float(*bits),
            Body::Text(bytes) => Value::Text(bytes.clone()),
            _ => return None,
        })
    }

    pub fn body(&self) -> Body {
        match self {
            Value::Null => Body::Null,
            Value::Bool(flag) => Body::Bool(*flag),
            Value::Unsigned(number) => Body::Unsigned(*number),
            Value::Signed(number) => Body::Signed(*number),
            Value::Float(bits) => Body::Float(*bits),
            Value::Text(bytes) => Body::Text(bytes.clone()),
        }
    }

    pub fn is_utf8(&self) -> bool {
        match self {
            Value::Text(bytes) => std::str::from_utf8(bytes).is_ok(),
            _ => true,
        }
    }

    pub fn is_too_long(&self) -> bool {
        matches!(self, Value::Text(bytes) if bytes.len() > TEXT)
    }
}

#[derive(Clone, Debug, PartialEq, Eq)]
pub enum Kind {
    Bool,
    Unsigned {
        lowest: u64,
        highest: u64,
    },
    Signed {
        lowest: i64,
        highest: i64,
    },
    /// Lowest and highest as bits.
    Float {
        lowest: u32,
        highest: u32,
    },
    Text,
}

/// In range by float comparison, ends included; NaN never is (RULES 2.9).
fn float_within(lowest: u32, bits: u32, highest: u32) -> bool {
    let value = f32::from_bits(bits);
    f32::from_bits(lowest) <= value && value <= f32::from_bits(highest)
}

/// 8D, 87 or 00 for a value at an attribute of this kind. Wrong kind comes before null, and null
/// is never of a wrong kind: it is 87 where it is not allowed.
pub fn judge(kind: &Kind, nullable: bool, value: &Value) -> u8 {
    let allowed = match (kind, value) {
        (_, Value::Null) => nullable,
        (Kind::Bool, Value::Bool(_)) => true,
        (Kind::Unsigned { lowest, highest }, Value::Unsigned(n)) => lowest <= n && n <= highest,
        (Kind::Signed { lowest, highest }, Value::Signed(n)) => lowest <= n && n <= highest,
        (Kind::Float { lowest, highest }, Value::Float(n)) => float_within(*lowest, *n, *highest),
        (Kind::Text, Value::Text(_)) => value.is_utf8() && !value.is_too_long(),
        _ => return INVALID_DATA_TYPE,
    };
    if allowed {
        SUCCESS
    } else {
        CONSTRAINT_ERROR
    }
}
