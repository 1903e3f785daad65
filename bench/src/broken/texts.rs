//! Bytes that are no UTF-8, and the outermost that are.

/// A byte that begins nothing, characters cut short, spelled longer than they need, surrogates, and numbers past the last character.
pub const WRONG: [&[u8]; 13] = [
    b"AB\x80C",
    b"AB\xFFC",
    b"AB\xC3",
    b"AB\xC3C",
    b"AB\xC0\x80C",
    b"AB\xE2\x82",
    b"AB\xE0\x9F\xBFC",
    b"AB\xED\xA0\x80C",
    b"AB\xF0\x9F\x98",
    b"AB\xF0\x8F\xBF\xBFC",
    b"AB\xF4\x90\x80\x80C",
    b"AB\xF5\x80\x80\x80C",
    b"\xA9",
];

/// The first and the last character of each length, and those around the surrogates.
pub const RIGHT: [&str; 6] =
    ["", "\0\u{7F}", "\u{80}\u{7FF}", "\u{800}\u{D7FF}", "\u{E000}\u{FFFF}", "\u{10000}\u{10FFFF}"];
