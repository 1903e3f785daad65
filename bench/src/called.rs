//! A sign and a panel that can be called: ours, and both in ordinary Rust.

use std::collections::BTreeMap;

use reference::paths::Path;
use reference::value::Value;

use crate::panel::Panel;
use crate::setup::Setup;

/// What a call answers: its number (RULES 6.1), and the reply's length in the buffer.
#[repr(C)]
#[derive(Clone, Copy, Debug, PartialEq)]
pub struct Last {
    pub number: u8,
    pub len: usize,
}

pub trait Called: Sized {
    /// A sign that holds what is set up, and has served nothing yet.
    fn new(setup: &Setup) -> Self;

    /// The sign as its own call starts it, if its schema keeps the rules.
    fn start(setup: &Setup) -> Option<Self>;

    /// Started anew: that call alone.
    fn restart(&mut self);

    /// A message from a subject.
    fn receive(&mut self, subject: u64, message: &[u8], out: &mut [u8]) -> Last;

    /// A change made at the sign itself: a number or a status.
    fn change(&mut self, path: &Path, value: &Value) -> u8;
}

pub trait CalledPanel: Sized {
    /// A panel that has asked nothing and holds nothing.
    fn fresh() -> Self;

    /// What our panel holds, with nothing asked yet.
    fn holding(panel: &Panel) -> Self;

    /// Made fresh again: that call alone.
    fn restart(&mut self);

    /// The exchange numbers up to this one count as used.
    fn use_up_to(&mut self, number: u64);

    /// The test of refusal 2 alone.
    fn valid(&self) -> bool;

    fn begin_read(&mut self, out: &mut [u8]) -> Last;

    fn begin_write(
        &mut self,
        path: &Path,
        version: Option<u32>,
        value: &Value,
        out: &mut [u8],
    ) -> Last;

    /// The newest message again.
    fn resend(&self, out: &mut [u8]) -> Last;

    /// A message from the sign.
    fn receive(&mut self, message: &[u8], out: &mut [u8]) -> Last;

    /// Everything that it holds, by path; what breaks the rules is not asked.
    fn entries(&self) -> BTreeMap<Path, (u32, Value)>;
}
