//! The listing, the name call and the values call in plain Rust, written from
//! document 01 alone: the baseline that the proved ones are timed against. They
//! do the same job with all checks, after the reference's reader.
//!
//! All three go through the events in order and tell each of them; a name or
//! its values end the walk.

use crate::listing::Values;
use crate::{accept, summarize, Name, Node, Refusal, Shape, Summary};
use std::ops::ControlFlow;

/// Writes the listing of a text to a lent buffer and tells its length.
pub fn list(text: &[u8], out: &mut [u8]) -> usize {
    let mut writer = Writer { out, length: 0 };
    match read(text) {
        Ok((summary, root)) => writer.events(&summary, &root),
        Err((number, place)) => {
            writer.word(b"refused ");
            writer.number(usize::from(number));
            writer.word(b" ");
            writer.number(place);
            writer.word(b"\n");
        }
    }
    writer.length
}

/// The name of an event as a part of the text, empty where refused.
pub fn name(text: &[u8], event: u64) -> &[u8] {
    find(text, event, |told| &text[told.name.place..][..told.name.word.len()]).unwrap_or_default()
}

/// The values of an event, or the refusal.
pub fn values(text: &[u8], event: u64) -> Result<Values, Refusal> {
    find(text, event, |told| Values { reset: told.reset, list: told.values.to_vec() })
}

fn read(text: &[u8]) -> Result<(Summary, Node), Refusal> {
    let root = accept(text)?;
    Ok((summarize(&root)?, root))
}

// ---------------------------------------------------------------------------
// The events in order
// ---------------------------------------------------------------------------

struct Told<'n> {
    name: &'n Name,
    reset: bool,
    values: &'n [usize],
}

/// Tells the events of a node until one of them ends the walk.
fn walk<V>(node: &Node, values: &mut Vec<usize>, tell: &mut impl FnMut(Told) -> ControlFlow<V>) -> ControlFlow<V> {
    match &node.shape {
        Shape::Leaf { name } => tell(Told { name, reset: false, values }),
        Shape::Flow { children: nodes, .. } | Shape::Group { members: nodes, .. } => {
            nodes.iter().try_for_each(|node| walk(node, values, tell))
        }
        Shape::Replicator { size, body, .. } => (0..*size).try_for_each(|value| {
            values.push(value);
            let flow = walk(body, values, tell);
            values.pop();
            flow
        }),
        Shape::Loop { body } => {
            walk(body, values, tell)?;
            match &body.shape {
                Shape::Flow { name, .. } => tell(Told { name, reset: true, values }),
                _ => ControlFlow::Continue(()),
            }
        }
    }
}

/// What is asked of an event.
fn find<V>(text: &[u8], event: u64, ask: impl Fn(Told) -> V) -> Result<V, Refusal> {
    let (_, root) = read(text)?;
    let mut left = event;
    let mut tell = |told: Told| match left {
        0 => ControlFlow::Break(ask(told)),
        _ => {
            left -= 1;
            ControlFlow::Continue(())
        }
    };
    walk(&root, &mut Vec::new(), &mut tell).break_value().ok_or((14, 0))
}

// ---------------------------------------------------------------------------
// Lines
// ---------------------------------------------------------------------------

struct Writer<'b> {
    out: &'b mut [u8],
    length: usize,
}

impl Writer<'_> {
    fn events(&mut self, summary: &Summary, root: &Node) {
        self.word(b"events ");
        self.number(summary.events);
        self.word(b" copies ");
        self.number(summary.copies);
        self.word(b"\n");
        let mut event = 0;
        let _ = walk(root, &mut Vec::new(), &mut |told: Told| {
            self.line(event, &told);
            event += 1;
            ControlFlow::<()>::Continue(())
        });
    }

    fn line(&mut self, event: usize, told: &Told) {
        self.number(event);
        self.word(if told.reset { b" reset " } else { b" " });
        self.word(told.name.word.as_bytes());
        for value in told.values {
            self.word(b" ");
            self.number(*value);
        }
        self.word(b"\n");
    }

    fn word(&mut self, word: &[u8]) {
        self.out[self.length..][..word.len()].copy_from_slice(word);
        self.length += word.len();
    }

    fn number(&mut self, number: usize) {
        if number > 9 {
            self.number(number / 10);
        }
        self.word(&[b'0' + (number % 10) as u8]);
    }
}
