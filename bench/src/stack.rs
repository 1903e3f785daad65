//! How much stack each call of the sign takes: it is run on a stack of its own, which was painted before and is looked at afterwards.

use std::arch::asm;

use reference::status::{INVALID_ACTION, SUCCESS};
use reference::value::Value;

use crate::called::Called;
use crate::library::Sign;
use crate::messages::{deep_read, filtered_reads, read_all, status, write_all, Messages};
use crate::ordinary::{Checked, Unchecked};
use crate::setup::{Setup, ATTRIBUTES, MESSAGE};
use crate::signs::{accented, number_of, path, text_of, SUBJECT};

const SIZE: usize = 1 << 20;
const PAINT: u8 = 0xC5;
/// A word is touched if any of its bytes has changed.
const WORD: usize = 8;

extern "C" fn enter(call: &mut &mut dyn FnMut()) {
    call();
}

/// How far down from its top a call touches the stack.
fn touched(mut call: &mut dyn FnMut()) -> usize {
    let mut stack = vec![PAINT; SIZE];
    let end = stack.as_mut_ptr_range().end as usize;
    // SAFETY: the new stack ends at a multiple of 16, as a call asks; r12 outlives the call, and with it the old stack; nothing unwinds from `enter`.
    unsafe {
        asm!(
            "xchg rsp, r12",
            "call {enter}",
            "mov rsp, r12",
            enter = sym enter,
            inout("r12") end & !15 => _,
            in("rdi") &mut call,
            clobber_abi("C"),
        );
    }
    let untouched = stack.chunks(WORD).take_while(|word| **word == [PAINT; WORD]).count();
    assert!(untouched > 0, "the stack is large enough");
    SIZE - WORD * untouched
}

/// The bytes of stack that a call takes, without what calling nothing takes.
pub fn bytes(call: &mut dyn FnMut()) -> usize {
    touched(call) - touched(&mut || {})
}

/// A call by its last message; those before it lead to it.
struct Call {
    name: &'static str,
    setup: Setup,
    messages: Messages,
    room: usize,
    /// The number that it answers.
    number: u8,
}

fn call(name: &'static str, number: u8, messages: &[Vec<u8>]) -> Call {
    let setup = accented(ATTRIBUTES);
    Call { name, setup, messages: Messages::of(messages), room: MESSAGE, number }
}

fn calls() -> Vec<Call> {
    let (read, success) = (read_all(), status(1, SUCCESS));
    let number = [(path(number_of(ATTRIBUTES)), Value::Unsigned(5))];
    let word = || Value::Text("PRÊT".as_bytes().to_vec());
    let words: Vec<_> = (0..16).map(|k| (path(4 + 5 * k), word())).collect();
    let filtered: Vec<u8> = filtered_reads(1, ATTRIBUTES).bytes;
    let mut broken = call("refused with 2", 2, &[read.clone()]);
    broken.setup.words[ATTRIBUTES - 1] = u64::MAX;
    let mut short = call("refused with 3", 3, &[read.clone()]);
    short.room = MESSAGE - 1;
    vec![
        call("a read, its first part", 0, &[read.clone()]),
        call("a read with 32 filters", 0, &[filtered]),
        call("a read, containers 10 deep", 0, &[deep_read()]),
        call("a success, the next part", 0, &[read.clone(), success.clone()]),
        call("a success, the same part again", 0, &[read.clone(), success.clone(), success]),
        call("a request again", 0, &[read.clone(), read.clone()]),
        call("a status that closes", 1, &[read.clone(), status(1, INVALID_ACTION)]),
        call("a write of one number", 0, &[write_all(&number)]),
        call("a write of 16 texts", 0, &[write_all(&words)]),
        call("a request that gets 80", 0, &[read[..read.len() - 1].to_vec()]),
        broken,
        short,
        call("refused with 4", 4, &[read[..7].to_vec()]),
    ]
}

/// The call alone, after the messages before it.
fn of_call<S: Called>(call: &Call) -> usize {
    let (mut sign, mut out) = (S::new(&call.setup), vec![0; call.room]);
    let messages: Vec<&[u8]> = call.messages.iter().collect();
    let (last, before) = messages.split_last().expect("a call has a message");
    for message in before {
        sign.receive(SUBJECT, message, &mut out);
    }
    bytes(&mut || assert_eq!(sign.receive(SUBJECT, last, &mut out).number, call.number))
}

/// A start, and local changes of a number and a text.
fn of_others<S: Called>() -> [usize; 3] {
    let mut sign = S::new(&accented(ATTRIBUTES));
    let (number, text) = (path(number_of(ATTRIBUTES)), path(text_of(ATTRIBUTES)));
    let word = Value::Text("PRÊT".as_bytes().to_vec());
    [
        bytes(&mut || sign.restart()),
        bytes(&mut || assert_eq!(sign.change(&number, &Value::Unsigned(5)), SUCCESS)),
        bytes(&mut || assert_eq!(sign.change(&text, &word), SUCCESS)),
    ]
}

pub fn line(name: &str, ours: Option<usize>, plain: Option<usize>, checked: usize) {
    let [ours, plain] = [ours, plain].map(|bytes| bytes.map_or("-".into(), |n| n.to_string()));
    println!("{name:38} {ours:>9} {plain:>9} {checked:9}");
}

pub fn print() {
    println!("\n{:38} {:>9} {:>9} {:>9}", "Stack, bytes", "ours", "plain", "checked");
    for call in calls() {
        let plain = (call.number != 2).then(|| of_call::<Unchecked>(&call));
        line(call.name, Some(of_call::<Sign>(&call)), plain, of_call::<Checked>(&call));
    }
    let names = ["a start", "a local change of a number", "a local change of a text"];
    let ours = of_others::<Sign>();
    let (plain, checked) = (of_others::<Unchecked>(), of_others::<Checked>());
    for (k, name) in names.iter().enumerate() {
        line(name, Some(ours[k]), Some(plain[k]), checked[k]);
    }
    let setup = accented(ATTRIBUTES);
    let (ours, checked) = (Sign::new(&setup), Checked::new(&setup));
    let ours = bytes(&mut || assert!(ours.valid()));
    let checked = bytes(&mut || assert!(checked.valid()));
    line("the test of refusal 2 alone", Some(ours), None, checked);
}
