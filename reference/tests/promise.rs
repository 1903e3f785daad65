//! Demand 3 over random honest runs: every message handed over was really made by the other end,
//! but it may be lost, repeated, late or out of order, and the sign changes all the while.
//!
//! First half: whenever the panel calls a cluster whole at version v, the sign has held v, and the
//! panel's entries are exactly what it may read there, as held at v.
//! Second half: a read whose last part is taken leaves every cluster whole that did not change
//! from the taking of its request to the making of that part; and if nothing gets lost, a last
//! part is taken.

use std::collections::BTreeMap;

use reference::acl::{granted, Entry};
use reference::answer::Answer;
use reference::cache::{Cache, Outcome};
use reference::envelope::{READ_REQUEST, REPORT, STATUS_RESPONSE};
use reference::generate::plan::{self, Size};
use reference::generate::values;
use reference::limits::MESSAGE;
use reference::messages::Report;
use reference::paths::{ClusterPath, Path};
use reference::rng::Rng;
use reference::schema::{Attribute, Schema};
use reference::server::Server;
use reference::value::Value;

type Copy = BTreeMap<Path, Value>;
type Versions = BTreeMap<ClusterPath, u32>;

/// What the second half asks about one exchange.
#[derive(Default)]
struct Taking {
    /// The versions when the request was taken.
    taken: Option<Versions>,
    /// The clusters that had not changed when the last part was made.
    unchanged: Option<Versions>,
}

struct Run {
    rng: Rng,
    schema: Schema,
    table: Vec<Entry>,
    server: Server,
    cache: Cache,
    /// What could be read of a cluster while it was at a version.
    held: BTreeMap<(ClusterPath, u32), Copy>,
    sent: Vec<Vec<u8>>,
    replies: Vec<Vec<u8>>,
    takings: BTreeMap<u64, Taking>,
    whole_seen: usize,
    parts_seen: usize,
    reads_ended: usize,
    /// Reads of several parts, ended, while some cluster changed.
    changing_reads: usize,
}

impl Run {
    fn new(seed: u64) -> Run {
        let mut rng = Rng::new(seed);
        let size = match seed % 10 {
            0 => Size::Full,
            1..=7 => Size::Wordy,
            _ => Size::Small,
        };
        let schema = plan::sound(&mut rng, size);
        let mut table = plan::table(&mut rng, &schema);
        table.truncate(16);
        let server = Server::start(schema.clone()).expect("a sound plan");
        let mut run = Run {
            rng,
            schema,
            table,
            server,
            cache: Cache::default(),
            held: BTreeMap::new(),
            sent: Vec::new(),
            replies: Vec::new(),
            takings: BTreeMap::new(),
            whole_seen: 0,
            parts_seen: 0,
            reads_ended: 0,
            changing_reads: 0,
        };
        run.keep_history();
        run
    }

    fn readable(&self, attribute: &Attribute) -> bool {
        let place = attribute.path.place();
        let subject = self.schema.subject;
        attribute.read.is_some_and(|privilege| granted(&self.table, subject, place, privilege))
    }

    fn copy_of(&self, place: ClusterPath) -> Copy {
        let holdings = self.server.holdings();
        self.schema
            .attributes
            .iter()
            .filter(|one| one.path.place() == place && self.readable(one))
            .map(|one| (one.path, holdings.value(&one.path).clone()))
            .collect()
    }

    fn versions(&self) -> Versions {
        let holdings = self.server.holdings();
        self.schema.clusters.iter().map(|one| (one.place, holdings.version(one.place))).collect()
    }

    /// What is held now; a version already known must stand for the same values.
    fn keep_history(&mut self) {
        for (place, version) in self.versions() {
            let now = self.copy_of(place);
            let known = self.held.entry((place, version)).or_insert_with(|| now.clone());
            assert_eq!(*known, now, "one version, two contents");
        }
    }

    fn check_first_half(&mut self) {
        for place in self.cache.clusters() {
            let Some(version) = self.cache.coherent(place) else { continue };
            let held = self.held.get(&(place, version));
            let held = held.unwrap_or_else(|| panic!("{place:?} never held version {version}"));
            let entries = self.cache.entries().iter().filter(|(path, _)| path.place() == place);
            let entries: Copy = entries.map(|(path, entry)| (*path, entry.1.clone())).collect();
            assert_eq!(entries, *held, "{place:?} is called whole at {version}, but is not");
            self.whole_seen += 1;
        }
    }

    /// A message of the panel's reaches the sign, as its subject.
    fn at_the_sign(&mut self, message: &[u8]) -> Answer {
        let (last, k) = self.server.exchange();
        let subject = self.schema.subject;
        let answer = self.server.receive(&self.table, subject, message, MESSAGE);
        let (exchange, turn) = self.server.exchange();
        if exchange > last && message[0] == READ_REQUEST {
            self.takings.entry(exchange).or_default().taken = Some(self.versions());
        }
        if let Answer::Done(reply) = &answer {
            assert_ne!(reply[0], STATUS_RESPONSE, "the sign refused a request of our panel");
            if reply[0] == REPORT && (exchange, turn) != (last, k) {
                self.part_made(exchange, reply.clone());
            }
            self.replies.push(reply.clone());
        }
        answer
    }

    /// Notes which clusters had not changed when a last part was made.
    fn part_made(&mut self, exchange: u64, reply: Vec<u8>) {
        self.parts_seen += 1;
        let report = Report::read(&reply[8..]).expect("our sign's report");
        if report.more {
            return;
        }
        let now = self.versions();
        let taking = self.takings.get_mut(&exchange).expect("a read that was taken");
        let taken = taking.taken.clone().expect("its versions");
        taking.unchanged = Some(now.into_iter().filter(|(at, v)| taken[at] == *v).collect());
    }

    /// A reply of the sign's reaches the panel.
    fn at_the_panel(&mut self, reply: &[u8]) -> Answer {
        let awaited = self.cache.awaited();
        let answer = self.cache.receive(reply, MESSAGE);
        let fine = !matches!(answer, Answer::Refused(6 | 7));
        assert!(fine, "the panel refused what our sign made: {answer:?}");
        if let Answer::Done(message) = &answer {
            self.sent.push(message.clone());
        }
        if answer == Answer::Nothing && self.cache.outcome() == Outcome::LastPart {
            self.check_second_half(awaited.expect("it was open").0);
        }
        answer
    }

    fn check_second_half(&mut self, exchange: u64) {
        self.reads_ended += 1;
        let unchanged = self.takings[&exchange].unchanged.clone().expect("a last part was made");
        self.changing_reads += usize::from(unchanged.len() < self.schema.clusters.len());
        for (place, version) in unchanged {
            if !self.copy_of(place).is_empty() {
                let coherent = self.cache.coherent(place);
                assert_eq!(coherent, Some(version), "{place:?} did not change, but is not whole");
            }
        }
    }

    /// Tries until something changed, so that the runs are lively.
    fn change(&mut self) {
        for _ in 0..8 {
            let (path, value) = values::path_and_value(&mut self.rng, &self.schema);
            if self.schema.find(&path).is_err() {
                continue;
            }
            let before = self.server.holdings().version(path.place());
            self.server.change(&path, value);
            if self.server.holdings().version(path.place()) != before {
                return;
            }
        }
    }

    fn begin(&mut self, read: bool) {
        let answer = if read {
            self.cache.begin_read(MESSAGE)
        } else {
            let (path, value) = values::path_and_value(&mut self.rng, &self.schema);
            let version = *self.rng.pick(&[None, None, Some(5), Some(6)]);
            self.cache.begin_write(path, version, &value, MESSAGE)
        };
        if let Answer::Done(message) = answer {
            self.sent.push(message);
        }
    }

    /// Mostly the newest, sometimes any that was ever made.
    fn one_of(rng: &mut Rng, made: &[Vec<u8>]) -> Option<Vec<u8>> {
        if rng.chance(75) {
            made.last().cloned()
        } else if made.is_empty() {
            None
        } else {
            Some(rng.pick(made).clone())
        }
    }

    /// Anything at all from another subject, or with no room for an answer, changes nothing.
    fn noise(&mut self) {
        let before = self.server.clone();
        let message = match Run::one_of(&mut self.rng, &self.sent) {
            Some(message) if self.rng.chance(70) => message,
            _ => self.rng.bytes(20),
        };
        let (subject, room) = if self.rng.chance(50) {
            (self.schema.subject ^ 1, MESSAGE)
        } else {
            (self.schema.subject, MESSAGE - 1)
        };
        let answer = self.server.receive(&self.table, subject, &message, room);
        assert!(!matches!(answer, Answer::Done(_)));
        assert!(before == self.server, "noise changed the sign");
        let before = self.cache.clone();
        if let Some(reply) = self.replies.last() {
            assert_eq!(self.cache.receive(reply, MESSAGE - 1), Answer::Refused(3));
        }
        assert!(before == self.cache, "a refusal changed the panel");
    }

    fn step(&mut self) {
        match self.rng.below(100) {
            0..=14 => self.change(),
            15 => self.begin(true),
            16 if self.rng.chance(50) => self.begin(false),
            16..=24 => {
                if self.cache.awaited().is_none() {
                    let read = self.rng.chance(80);
                    self.begin(read);
                }
            }
            25..=29 => {
                if let Answer::Done(message) = self.cache.resend(MESSAGE) {
                    self.sent.push(message);
                }
            }
            30..=34 => self.noise(),
            35..=67 => {
                if let Some(message) = Run::one_of(&mut self.rng, &self.sent) {
                    self.at_the_sign(&message);
                }
            }
            _ => {
                if let Some(reply) = Run::one_of(&mut self.rng, &self.replies) {
                    self.at_the_panel(&reply);
                }
            }
        }
        self.keep_history();
        self.check_first_half();
    }

    /// A read of which nothing gets lost, with or without changes in between: it must end on its
    /// last part, each part carrying at least one block more.
    fn clean_read(&mut self, changing: bool) {
        self.begin(true);
        for _ in 0..=self.schema.attributes.len() + 1 {
            let message = self.sent.last().expect("just sent").clone();
            let Answer::Done(reply) = self.at_the_sign(&message) else {
                panic!("the sign fell silent in a read of our panel's")
            };
            if changing {
                self.change();
                self.keep_history();
            }
            let answer = self.at_the_panel(&reply);
            self.check_first_half();
            if answer == Answer::Nothing {
                assert_eq!(self.cache.outcome(), Outcome::LastPart);
                return;
            }
        }
        panic!("a read without losses did not come to its end");
    }
}

#[test]
fn whole_means_held_and_a_complete_read_makes_whole() {
    let (mut whole, mut parts, mut ended, mut changing) = (0, 0, 0, 0);
    for seed in 0..1000 {
        let mut run = Run::new(seed);
        for _ in 0..250 {
            run.step();
        }
        run.clean_read(true);
        run.clean_read(false);
        // Now nothing changed at all: everything readable is whole and up to date.
        for (place, version) in run.versions() {
            if !run.copy_of(place).is_empty() {
                assert_eq!(run.cache.coherent(place), Some(version), "seed {seed}");
            }
        }
        whole += run.whole_seen;
        parts += run.parts_seen;
        ended += run.reads_ended;
        changing += run.changing_reads;
    }
    println!("{whole} times whole, {parts} parts, {ended} reads ended, {changing} in change");
    assert!(whole > 100_000 && parts > 5_000, "the runs are too tame");
    assert!(ended > 2_000 && changing > 1_000, "the runs are too tame");
}
