//! What a drawing means, written from documents 01 and 02 alone: its events,
//! its node copies, its whole runs, and the book that is kept of a run.
//!
//! Whole runs are told without control bits. A drawing becomes an expression
//! for the set of its whole runs, and an event turns an expression into its
//! derivative: the expression for all that may follow the event. So a list of
//! events begins a whole run exactly when something is left after it, and is
//! whole exactly when the empty list is left.

use crate::{accept, summarize, Kind, Node, Refusal, Shape};
use std::ops::Range;
use std::rc::Rc;

// ---------------------------------------------------------------------------
// Events and node copies
// ---------------------------------------------------------------------------

/// A copy of a leaf, or the reset of a copy of a loop over a flow.
#[derive(Clone, Debug, PartialEq, Eq)]
pub struct Event {
    /// The leaf's name, for a reset that of its body's flow.
    pub name: String,
    /// The values of the replicators around, outermost first.
    pub values: Vec<usize>,
    pub reset: bool,
    /// The events of the loop's body for a reset, none for a leaf.
    pub cleared: Range<usize>,
}

/// One copy of a node. What is below a replicator are the copies of its body,
/// values rising. The numbers of a copy's events have no gap, as they are
/// given depth first.
#[derive(Clone, Debug)]
pub struct Copy {
    pub kind: Kind,
    pub events: Range<usize>,
    pub below: Vec<Copy>,
}

/// An accepted text, all copies made.
#[derive(Clone, Debug)]
pub struct Diagram {
    pub events: Vec<Event>,
    pub copies: usize,
    pub root: Copy,
    runs: Runs,
}

impl Diagram {
    pub fn of(text: &[u8]) -> Result<Diagram, Refusal> {
        let node = accept(text)?;
        summarize(&node)?;
        let mut events = Vec::new();
        let root = copy_of(&node, &mut Vec::new(), &mut events);
        Ok(Diagram { copies: count(&root), runs: runs_of(&root), events, root })
    }

    /// Whether adding events after these, or none, gives a whole run.
    pub fn begins(&self, events: &[usize]) -> bool {
        !after_all(&self.runs, events).is_nothing()
    }

    pub fn whole(&self, events: &[usize]) -> bool {
        after_all(&self.runs, events).accepts_empty
    }
}

fn copy_of(node: &Node, values: &mut Vec<usize>, events: &mut Vec<Event>) -> Copy {
    let first = events.len();
    if let Shape::Leaf { name } = &node.shape {
        events.push(Event { name: name.word.clone(), values: values.clone(), reset: false, cleared: 0..0 });
    }
    let below = copies_below(node, values, events);
    if let Shape::Loop { body } = &node.shape {
        events.extend(reset_of(body, values, first..events.len()));
    }
    Copy { kind: node.kind(), events: first..events.len(), below }
}

fn copies_below(node: &Node, values: &mut Vec<usize>, events: &mut Vec<Event>) -> Vec<Copy> {
    let Shape::Replicator { size, body, .. } = &node.shape else {
        return node.below().into_iter().map(|below| copy_of(below, values, events)).collect();
    };
    let mut copies = Vec::new();
    for value in 0..*size {
        values.push(value);
        copies.push(copy_of(body, values, events));
        values.pop();
    }
    copies
}

/// The reset that stands directly after the events of a loop's body, if the
/// body is a flow.
fn reset_of(body: &Node, values: &[usize], cleared: Range<usize>) -> Option<Event> {
    match &body.shape {
        Shape::Flow { name, .. } => {
            Some(Event { name: name.word.clone(), values: values.to_vec(), reset: true, cleared })
        }
        _ => None,
    }
}

fn count(copy: &Copy) -> usize {
    1 + copy.below.iter().map(count).sum::<usize>()
}

// ---------------------------------------------------------------------------
// Expressions for sets of runs
// ---------------------------------------------------------------------------

/// A set of lists of events. Parts that an event does not touch are shared
/// between an expression and its derivative.
pub type Runs = Rc<Expression>;

#[derive(Debug)]
pub struct Expression {
    form: Form,
    /// Whether the empty list is among the lists.
    accepts_empty: bool,
    /// No event outside occurs in the lists: lets a derivative look only at
    /// the part that owns the event.
    within: Range<usize>,
}

#[derive(Debug)]
enum Form {
    /// No list, not even the empty one. The functions below that join
    /// expressions never put this inside another one, and no other form is
    /// without lists: so this form is the only one for the empty set.
    Nothing,
    /// The empty list alone.
    Done,
    Event(usize),
    /// A list of the first, then one of the second.
    Sequence(Runs, Runs),
    /// One list of each, in any interleaving.
    Interleaving(Vec<Runs>),
    /// A list of one of them.
    Choice(Vec<Runs>),
    /// An interleaving over any nonempty choice of them.
    NonemptyChoice(Vec<Runs>),
    /// Zero or more lists of it, one after the other.
    Repeated(Runs),
    /// Rounds of a flow, each ended by this reset, and then optionally one
    /// further run of it without: that is nothing, or a run of the flow, after
    /// which comes nothing more or the reset and all of this once more.
    Rounds(Runs, usize),
}

impl Expression {
    fn is_nothing(&self) -> bool {
        matches!(self.form, Form::Nothing)
    }

    fn is_done(&self) -> bool {
        matches!(self.form, Form::Done)
    }
}

fn nothing() -> Runs {
    Rc::new(Expression { form: Form::Nothing, accepts_empty: false, within: 0..0 })
}

fn done() -> Runs {
    Rc::new(Expression { form: Form::Done, accepts_empty: true, within: 0..0 })
}

fn event(number: usize) -> Runs {
    Rc::new(Expression { form: Form::Event(number), accepts_empty: false, within: number..number + 1 })
}

fn sequence(first: Runs, then: Runs) -> Runs {
    if first.is_nothing() || then.is_done() {
        return first;
    }
    if then.is_nothing() || first.is_done() {
        return then;
    }
    let accepts_empty = first.accepts_empty && then.accepts_empty;
    let within = around(&[first.clone(), then.clone()]);
    Rc::new(Expression { form: Form::Sequence(first, then), accepts_empty, within })
}

/// The parts under one form; one part needs no form, and `none` stands for no
/// part at all.
fn under(form: fn(Vec<Runs>) -> Form, mut parts: Vec<Runs>, none: Runs, accepts_empty: bool) -> Runs {
    match parts.len() {
        0 => none,
        1 => parts.remove(0),
        _ => {
            let within = around(&parts);
            Rc::new(Expression { form: form(parts), accepts_empty, within })
        }
    }
}

fn interleaving(mut parts: Vec<Runs>) -> Runs {
    if parts.iter().any(|part| part.is_nothing()) {
        return nothing();
    }
    parts.retain(|part| !part.is_done());
    let accepts_empty = parts.iter().all(|part| part.accepts_empty);
    under(Form::Interleaving, parts, done(), accepts_empty)
}

/// One of the parts, or several of them, by the form.
fn chosen(form: fn(Vec<Runs>) -> Form, mut parts: Vec<Runs>) -> Runs {
    parts.retain(|part| !part.is_nothing());
    let accepts_empty = parts.iter().any(|part| part.accepts_empty);
    under(form, parts, nothing(), accepts_empty)
}

fn choice(parts: Vec<Runs>) -> Runs {
    chosen(Form::Choice, parts)
}

fn nonempty_choice(parts: Vec<Runs>) -> Runs {
    chosen(Form::NonemptyChoice, parts)
}

fn repeated(body: Runs) -> Runs {
    if body.is_nothing() || body.is_done() {
        return done();
    }
    let within = body.within.clone();
    Rc::new(Expression { form: Form::Repeated(body), accepts_empty: true, within })
}

/// Every flow has a solid child and so an event: no round is empty.
fn rounds(body: Runs, reset: usize) -> Runs {
    assert!(!body.accepts_empty, "a flow has a run without an event");
    let within = around(&[body.clone(), event(reset)]);
    Rc::new(Expression { form: Form::Rounds(body, reset), accepts_empty: true, within })
}

/// These lists and the empty one.
fn optional(part: &Runs) -> Runs {
    match part.accepts_empty {
        true => part.clone(),
        false => choice(vec![part.clone(), done()]),
    }
}

/// From the lowest to the highest event of these.
fn around(parts: &[Runs]) -> Range<usize> {
    let ranges = || parts.iter().map(|part| &part.within).filter(|within| !within.is_empty());
    let start = ranges().map(|within| within.start).min().unwrap_or(0);
    let end = ranges().map(|within| within.end).max().unwrap_or(0);
    start..end
}

/// The whole runs of a copy, each sentence of "Events and whole runs" a line,
/// the one on a loop over a flow as card 1 changes it.
pub fn runs_of(copy: &Copy) -> Runs {
    let below = || copy.below.iter().map(runs_of).collect::<Vec<_>>();
    match copy.kind {
        Kind::Leaf => event(copy.events.start),
        Kind::Flow => in_order(below()),
        Kind::And | Kind::All(_) => interleaving(below()),
        Kind::Or | Kind::Some(_) => nonempty_choice(below()),
        Kind::Xor | Kind::One(_) => choice(below()),
        Kind::Loop => loop_of(&copy.below[0]),
    }
}

fn in_order(parts: Vec<Runs>) -> Runs {
    parts.into_iter().rev().fold(done(), |then, first| sequence(first, then))
}

/// A loop over a leaf or over a flow, whose reset is the event after those of
/// the body.
fn loop_of(body: &Copy) -> Runs {
    match body.kind {
        Kind::Leaf => repeated(runs_of(body)),
        _ => rounds(runs_of(body), body.events.end),
    }
}

// ---------------------------------------------------------------------------
// Derivatives
// ---------------------------------------------------------------------------

fn after_all(runs: &Runs, events: &[usize]) -> Runs {
    events.iter().fold(runs.clone(), |left, &event| after(&left, event))
}

/// Whether these lists hold this one.
pub fn holds(runs: &Runs, events: &[usize]) -> bool {
    after_all(runs, events).accepts_empty
}

/// All that may follow this event: the lists that start with it, without it.
fn after(runs: &Runs, event: usize) -> Runs {
    if !runs.within.contains(&event) {
        return nothing();
    }
    match &runs.form {
        Form::Nothing | Form::Done => nothing(),
        Form::Event(number) if *number == event => done(),
        Form::Event(_) => nothing(),
        Form::Sequence(first, then) => after_sequence(first, then, event),
        Form::Interleaving(parts) => in_each(parts, event, |left, at| interleaving(replaced(parts, at, left))),
        Form::Choice(parts) => in_each(parts, event, |left, _| left),
        Form::NonemptyChoice(parts) => in_each(parts, event, |left, at| after_chosen(parts, at, left)),
        Form::Repeated(body) => sequence(after(body, event), runs.clone()),
        Form::Rounds(body, reset) => sequence(after(body, event), after_a_run(*reset, runs)),
    }
}

/// What may follow a run of a loop's flow.
fn after_a_run(reset: usize, rounds: &Runs) -> Runs {
    optional(&sequence(event(reset), rounds.clone()))
}

/// The event is of the first, or the first is skipped as the empty list.
fn after_sequence(first: &Runs, then: &Runs, event: usize) -> Runs {
    let in_first = sequence(after(first, event), then.clone());
    match first.accepts_empty {
        true => choice(vec![in_first, after(then, event)]),
        false => in_first,
    }
}

/// The event is one of any part: what is left of that part, joined with the
/// others. Parts that cannot have the event add nothing and are left alone.
fn in_each(parts: &[Runs], event: usize, join: impl Fn(Runs, usize) -> Runs) -> Runs {
    let mut ways = Vec::new();
    for (at, part) in parts.iter().enumerate() {
        let left = after(part, event);
        if !left.is_nothing() {
            ways.push(join(left, at));
        }
    }
    choice(ways)
}

fn replaced(parts: &[Runs], at: usize, part: Runs) -> Vec<Runs> {
    let mut parts = parts.to_vec();
    parts[at] = part;
    parts
}

/// The part is now chosen; each of the others may still be chosen or not.
fn after_chosen(parts: &[Runs], at: usize, left: Runs) -> Runs {
    let others: Vec<Runs> = parts.iter().map(optional).collect();
    interleaving(replaced(&others, at, left))
}

/// Adds the events that may come next, in no order.
fn add_next(runs: &Runs, next: &mut Vec<usize>) {
    match &runs.form {
        Form::Nothing | Form::Done => {}
        Form::Event(number) => next.push(*number),
        Form::Sequence(first, then) => {
            add_next(first, next);
            if first.accepts_empty {
                add_next(then, next);
            }
        }
        Form::Interleaving(parts) | Form::Choice(parts) | Form::NonemptyChoice(parts) => {
            parts.iter().for_each(|part| add_next(part, next));
        }
        Form::Repeated(body) | Form::Rounds(body, _) => add_next(body, next),
    }
}

// ---------------------------------------------------------------------------
// The book
// ---------------------------------------------------------------------------

pub const TAKEN: u8 = 0;
pub const NOT_FINISHED: u8 = 0;
pub const NO_EVENT: u8 = 14;
pub const NOT_NOW: u8 = 15;
pub const FINISHED: u8 = 255;

/// The events taken so far, and what they say of the record.
pub struct Book<'d> {
    diagram: &'d Diagram,
    taken: Vec<usize>,
    left: Runs,
    words: [u64; 8],
}

impl<'d> Book<'d> {
    /// The empty book, which stands beside the blank record.
    pub fn new(diagram: &'d Diagram) -> Book<'d> {
        Book { diagram, taken: Vec::new(), left: diagram.runs.clone(), words: [0; 8] }
    }

    /// Puts the event at the end if the list still begins a whole run then.
    pub fn step(&mut self, event: u64) -> u8 {
        if event >= self.diagram.events.len() as u64 {
            return NO_EVENT;
        }
        let event = event as usize;
        let left = after(&self.left, event);
        if left.is_nothing() {
            return NOT_NOW;
        }
        self.left = left;
        self.taken.push(event);
        self.mark(event);
        TAKEN
    }

    pub fn finished(&self) -> u8 {
        match self.left.accepts_empty {
            true => FINISHED,
            false => NOT_FINISHED,
        }
    }

    fn mark(&mut self, event: usize) {
        for cleared in self.diagram.events[event].cleared.clone() {
            self.words[cleared / 64] &= !bit_in_word(cleared);
        }
        self.words[event / 64] |= bit_in_word(event);
    }

    pub fn is_set(&self, event: usize) -> bool {
        self.words[event / 64] & bit_in_word(event) != 0
    }

    /// The record as the C firmware has it.
    pub fn record(&self) -> [u8; 64] {
        let mut bytes = [0; 64];
        for (place, word) in bytes.chunks_mut(8).zip(self.words) {
            place.copy_from_slice(&word.to_be_bytes());
        }
        bytes
    }

    pub fn taken(&self) -> &[usize] {
        &self.taken
    }

    /// The events that a step would take now, rising.
    pub fn next(&self) -> Vec<usize> {
        let mut next = Vec::new();
        add_next(&self.left, &mut next);
        next.sort_unstable();
        next.dedup();
        next
    }
}

/// Bit 0 is the top bit of the first word.
fn bit_in_word(event: usize) -> u64 {
    1 << (63 - event % 64)
}

/// How many forms an expression is made of.
#[cfg(test)]
pub(crate) fn forms(runs: &Runs) -> usize {
    1 + match &runs.form {
        Form::Nothing | Form::Done | Form::Event(_) => 0,
        Form::Sequence(first, then) => forms(first) + forms(then),
        Form::Interleaving(parts) | Form::Choice(parts) | Form::NonemptyChoice(parts) => {
            parts.iter().map(forms).sum()
        }
        Form::Repeated(body) | Form::Rounds(body, _) => forms(body),
    }
}

#[cfg(test)]
impl Book<'_> {
    /// How many forms are left, and how many the whole drawing has.
    pub(crate) fn forms(&self) -> (usize, usize) {
        (forms(&self.left), forms(&self.diagram.runs))
    }
}
