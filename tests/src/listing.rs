//! The events of a drawing, its listing, and the answers of the name call and
//! the values call, written from document 01 alone: one plain recursion over
//! the tree, and its events written out line by line.

use crate::{accept, summarize, Name, Node, Refusal, Shape, Summary};
use std::fmt::Write;
use std::ops::Range;

/// The shortest buffer for a listing, which takes every one.
pub const LISTING_LIMIT: usize = 32_768;

/// A copy of a leaf, or the reset of a copy of a loop over a flow.
#[derive(Clone, Debug, PartialEq, Eq)]
pub struct Event {
    /// Where the leaf's name stands in the text, for a reset that of its
    /// body's flow.
    pub name: Range<usize>,
    pub values: Values,
}

/// The values of the replicators around an event, outermost first, and the
/// mark that tells a reset from a leaf.
#[derive(Clone, Debug, PartialEq, Eq)]
pub struct Values {
    pub reset: bool,
    pub list: Vec<usize>,
}

/// The events of an accepted text in the order of their numbers.
pub type Events = Result<Vec<Event>, Refusal>;

pub fn events(text: &[u8]) -> Events {
    counted_events(text).map(|(_, events)| events)
}

fn counted_events(text: &[u8]) -> Result<(Summary, Vec<Event>), Refusal> {
    let root = accept(text)?;
    let summary = summarize(&root)?;
    let mut events = Vec::new();
    add_events(&root, &[], &mut events);
    Ok((summary, events))
}

/// Depth first, left to right, values rising, a reset directly after its
/// loop's body.
fn add_events(node: &Node, values: &[usize], events: &mut Vec<Event>) {
    match &node.shape {
        Shape::Leaf { name } => events.push(event(name, values, false)),
        Shape::Flow { children: nodes, .. } | Shape::Group { members: nodes, .. } => {
            nodes.iter().for_each(|node| add_events(node, values, events));
        }
        Shape::Replicator { size, body, .. } => {
            (0..*size).for_each(|value| add_events(body, &[values, &[value]].concat(), events));
        }
        Shape::Loop { body } => {
            add_events(body, values, events);
            if let Shape::Flow { name, .. } = &body.shape {
                events.push(event(name, values, true));
            }
        }
    }
}

fn event(name: &Name, values: &[usize], reset: bool) -> Event {
    let values = Values { reset, list: values.to_vec() };
    Event { name: name.place..name.place + name.word.len(), values }
}

// ---------------------------------------------------------------------------
// The listing
// ---------------------------------------------------------------------------

/// What the listing program prints for a text.
pub fn listing(text: &[u8]) -> Vec<u8> {
    let lines = match counted_events(text) {
        Ok((summary, events)) => event_lines(text, &summary, &events),
        Err((number, place)) => format!("refused {number} {place}\n"),
    };
    lines.into_bytes()
}

fn event_lines(text: &[u8], summary: &Summary, events: &[Event]) -> String {
    let text = std::str::from_utf8(text).expect("no byte is foreign");
    let mut lines = format!("events {} copies {}\n", summary.events, summary.copies);
    for (number, event) in events.iter().enumerate() {
        add_line(number, &text[event.name.clone()], &event.values, &mut lines)
            .expect("a string takes all that is written");
    }
    lines
}

/// Number, name and values, with a space before each but the first.
fn add_line(number: usize, name: &str, values: &Values, lines: &mut String) -> std::fmt::Result {
    let mark = if values.reset { " reset" } else { "" };
    write!(lines, "{number}{mark} {name}")?;
    values.list.iter().try_for_each(|value| write!(lines, " {value}"))?;
    writeln!(lines)
}

// ---------------------------------------------------------------------------
// The name call and the values call
// ---------------------------------------------------------------------------

/// The part of the text that is the event's name; an empty one where refused.
pub fn name(text: &[u8], number: u64) -> Range<usize> {
    name_in(&events(text), number)
}

/// The event's values and mark, or the refusal.
pub fn values(text: &[u8], number: u64) -> Result<Values, Refusal> {
    values_in(&events(text), number)
}

/// The answer of the name call to a text with these events.
pub fn name_in(events: &Events, number: u64) -> Range<usize> {
    event_in(events, number).map_or(0..0, |event| event.name.clone())
}

/// The answer of the values call to a text with these events.
pub fn values_in(events: &Events, number: u64) -> Result<Values, Refusal> {
    event_in(events, number).map(|event| event.values.clone())
}

fn event_in(events: &Events, number: u64) -> Result<&Event, Refusal> {
    let events = events.as_ref().map_err(|refusal| *refusal)?;
    let event = usize::try_from(number).ok().and_then(|number| events.get(number));
    event.ok_or((14, 0))
}
