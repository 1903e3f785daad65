//! What the answers reached: how many there were of each number and of each status.

use std::collections::BTreeMap;

use reference::envelope::{REPORT, STATUS_RESPONSE, WRITE_RESPONSE};
use reference::player::Printed;
use reference::script::Line;
use reference::tlv::{read_payload, Body, Element, Tag};

use super::steps::Step;

/// A kind of answer, how often each of its numbers came, and those that must come.
pub struct Group {
    name: &'static str,
    hex: bool,
    wanted: &'static [u8],
    counts: BTreeMap<u8, u64>,
}

impl Group {
    pub fn new(name: &'static str, hex: bool, wanted: &'static [u8]) -> Group {
        Group { name, hex, wanted, counts: BTreeMap::new() }
    }

    pub fn count(&mut self, number: u8) {
        *self.counts.entry(number).or_default() += 1;
    }

    /// Prints the counts, with what never came.
    pub fn print(&self) {
        let Group { name, hex, wanted, counts } = self;
        let spell = |number: u8| if *hex { format!("{number:02X}") } else { number.to_string() };
        let mut line = format!("  {name}:");
        for (number, count) in counts {
            line.push_str(&format!(" {} x {count},", spell(*number)));
        }
        for number in wanted.iter().filter(|number| !counts.contains_key(number)) {
            line.push_str(&format!(" {} never,", spell(*number)));
        }
        println!("{}", line.trim_end_matches(','));
    }
}

pub struct Reached([Group; 6]);

const START: usize = 0;
const SIGN: usize = 1;
const CHANGE: usize = 2;
const STATUS: usize = 3;
const WRITE: usize = 4;
const BLOCK: usize = 5;

impl Reached {
    pub fn new() -> Reached {
        Reached([
            Group::new("starts", false, &[0, 11]),
            Group::new("messages", false, &[0, 1, 2, 3, 4]),
            Group::new("local changes", true, &[0, 0x7F, 0x86, 0x87, 0x8D, 0xC3]),
            Group::new("status responses", true, &[0x80, 0x89, 0xC8, 0xC9]),
            Group::new("written", true, &[0, 0x7E, 0x7F, 0x86, 0x87, 0x88, 0x8D, 0x92, 0xC3]),
            Group::new("reported statuses", true, &[0x7E, 0x7F, 0x86, 0x8F, 0xC3]),
        ])
    }

    fn count(&mut self, group: usize, number: u8) {
        self.0[group].count(number);
    }

    /// Counts the answers to these steps.
    pub fn add(&mut self, steps: &[Step], answers: &[Printed]) {
        let lines = steps.iter().filter(|step| step.is_answered());
        for (step, (number, reply)) in lines.zip(answers) {
            match step.line {
                Line::Start => self.count(START, *number),
                Line::Change(..) => self.count(CHANGE, *number),
                _ => self.count(SIGN, *number),
            }
            if !reply.is_empty() {
                self.add_statuses(reply);
            }
        }
    }

    fn add_statuses(&mut self, reply: &[u8]) {
        let fields = read_payload(&reply[8..]).expect("a reply is well-formed");
        match reply[0] {
            STATUS_RESPONSE => self.add_status(STATUS, &fields),
            WRITE_RESPONSE => {
                for block in members(&fields, 0) {
                    self.add_status(WRITE, members(inside(block), 1));
                }
            }
            REPORT => {
                for block in members(&fields, 1) {
                    self.add_status(BLOCK, members(members(inside(block), 0), 1));
                }
            }
            other => panic!("a reply of opcode {other}"),
        }
    }

    /// The status among these fields, if there is one.
    fn add_status(&mut self, group: usize, fields: &[Element]) {
        let status = fields.iter().find(|field| field.tag == Tag::Context(0));
        if let Some(Element { body: Body::Unsigned(code), .. }) = status {
            self.count(group, *code as u8);
        }
    }

    pub fn print(&self) {
        self.0.iter().for_each(Group::print);
    }
}

fn inside(element: &Element) -> &[Element] {
    match &element.body {
        Body::Structure(members) | Body::Array(members) | Body::List(members) => members,
        _ => &[],
    }
}

/// The members of the container with this tag.
fn members(fields: &[Element], tag: u8) -> &[Element] {
    fields.iter().find(|field| field.tag == Tag::Context(tag)).map_or(&[], inside)
}
