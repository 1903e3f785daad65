//! A rule beside states that break it and states that just keep it, and how they are held.

use crate::called::Last;
use crate::setup::MESSAGE;

/// What the buffer is full of before a call.
const UNWRITTEN: [u8; MESSAGE] = [0xA5; MESSAGE];

/// A call that takes a state.
pub struct Call<S> {
    pub name: &'static str,
    pub call: fn(&mut S, &mut [u8]) -> Last,
}

pub trait Lent: Clone + PartialEq + 'static {
    /// Every call that takes such a state.
    const CALLS: &'static [Call<Self>];
}

type Change<S> = Box<dyn Fn(&mut S)>;

/// A rule, changes of a right state that break only it, and changes that leave it just kept.
pub struct Rule<S> {
    words: &'static str,
    broken: Vec<Change<S>>,
    kept: Vec<Change<S>>,
}

pub fn rule<S: Lent>(words: &'static str) -> Rule<S> {
    Rule { words, broken: Vec::new(), kept: Vec::new() }
}

impl<S: Lent> Rule<S> {
    /// One change for each of these.
    pub fn broken<V: Copy + 'static>(
        mut self,
        values: impl IntoIterator<Item = V>,
        change: fn(&mut S, V),
    ) -> Self {
        let changes = values.into_iter().map(|value| boxed(value, change));
        self.broken.extend(changes);
        self
    }

    pub fn kept<V: Copy + 'static>(
        mut self,
        values: impl IntoIterator<Item = V>,
        change: fn(&mut S, V),
    ) -> Self {
        let changes = values.into_iter().map(|value| boxed(value, change));
        self.kept.extend(changes);
        self
    }

    /// Each of these states with each change, by a name, and whether the rule is kept then.
    pub fn each(&self, states: &[S], mut hold: impl FnMut(&str, &S, bool)) {
        for (b, state) in states.iter().enumerate() {
            for (changes, kept) in [(&self.kept, true), (&self.broken, false)] {
                for (k, change) in changes.iter().enumerate() {
                    let how = if kept { "keeps" } else { "breaks" };
                    let name = format!("{}: state {b}, change {k} that {how} it", self.words);
                    hold(&name, &changed(&name, state, change), kept);
                }
            }
        }
    }

    /// Holds the rule on each of these states, which keep it: how many that break it were made of them. Stops at the first that is not answered as it must be.
    pub fn hold(&self, states: &[S]) -> usize {
        states.iter().for_each(|state| hold_right(self.words, state));
        self.each(states, |name, state, kept| match kept {
            true => hold_right(name, state),
            false => hold_broken(name, state),
        });
        let (broken, kept) = (self.broken.len() * states.len(), self.kept.len() * states.len());
        let answers = if broken > 0 { " 2" } else { " -" }.repeat(S::CALLS.len());
        println!("  {:78}{answers:16} {broken:5} {kept:5}", self.words);
        broken
    }
}

fn boxed<S: 'static, V: Copy + 'static>(value: V, change: fn(&mut S, V)) -> Change<S> {
    Box::new(move |state: &mut S| change(state, value))
}

fn changed<S: Lent>(name: &str, state: &S, change: &Change<S>) -> S {
    let mut other = state.clone();
    change(&mut other);
    assert!(other != *state, "{name}: the change does nothing");
    other
}

/// No call answers 2.
fn hold_right<S: Lent>(name: &str, state: &S) {
    for Call { name: call_name, call } in S::CALLS {
        let (mut after, mut out) = (state.clone(), UNWRITTEN);
        let last = call(&mut after, &mut out);
        assert_ne!(last.number, 2, "{name}: {call_name}");
    }
}

/// Every call answers 2 and leaves all that it was lent as it was.
fn hold_broken<S: Lent>(name: &str, state: &S) {
    for Call { name: call_name, call } in S::CALLS {
        let (mut after, mut out) = (state.clone(), UNWRITTEN);
        let Last { number, len } = call(&mut after, &mut out);
        assert_eq!((number, len), (2, 0), "{name}: {call_name}");
        assert!(after == *state, "{name}: {call_name} has changed the state");
        assert!(out == UNWRITTEN, "{name}: {call_name} has written to the buffer");
    }
}
