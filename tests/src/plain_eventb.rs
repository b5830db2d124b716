//! The Event-B text of an event in plain Rust, written from card 2 alone: the
//! guards say from the root down what each node around the event asks for, as
//! straightforwardly as can be. It is held to the same as the proved call, so
//! that the comparison is seen to pass, and to fail for a writer with a slip.

use crate::eventb::{actions, drawing_of, variable, EVENTB_LIMIT, MACHINE_EVENTS};
use crate::kit::refusal_number;
use crate::meaning::{Copy, Diagram};
use crate::{Kind, Refusal};
use std::fmt::Write;
use std::ops::Range;

/// How a writer goes about it; all but the right ways are slips.
#[derive(Clone, Copy)]
pub struct Ways {
    /// A guard for each later child of a flow, or for all but the last of them.
    pub all_later_children: bool,
    /// An `or` is complete only if no member is halfway.
    pub members_halfway: bool,
    /// A reset clears the variables of its loop's body.
    pub clears: bool,
    /// What the first guard is counted as.
    pub first_guard: usize,
    pub most_events: usize,
    /// What is refused leaves the buffer alone.
    pub refuses_quietly: bool,
}

pub const RIGHT: Ways = Ways {
    all_later_children: true,
    members_halfway: true,
    clears: true,
    first_guard: 1,
    most_events: MACHINE_EVENTS,
    refuses_quietly: true,
};

/// Writes the text of an event to a lent buffer: the number of bytes written, or
/// number * 2^32 + place for a refusal.
pub fn eventb(text: &[u8], event: u64, out: &mut [u8]) -> u64 {
    written(RIGHT, text, event, out)
}

/// The same, not always in the right way.
pub fn written(ways: Ways, text: &[u8], event: u64, out: &mut [u8]) -> u64 {
    if out.len() < EVENTB_LIMIT {
        return refused((1, 0), ways, out);
    }
    match plain_event(ways, text, event) {
        Ok(written) => {
            out[..written.len()].copy_from_slice(written.as_bytes());
            written.len() as u64
        }
        Err(refusal) => refused(refusal, ways, out),
    }
}

fn refused(refusal: Refusal, ways: Ways, out: &mut [u8]) -> u64 {
    if let (Some(first), false) = (out.first_mut(), ways.refuses_quietly) {
        *first = 0;
    }
    refusal_number(refusal)
}

/// The text of an event, or the refusal.
pub fn plain_event(ways: Ways, text: &[u8], event: u64) -> Result<String, Refusal> {
    let diagram = drawing_of(text).or_else(|refusal| let_in(ways, text).ok_or(refusal))?;
    if event >= diagram.events.len() as u64 {
        return Err((14, 0));
    }
    let event = event as usize;
    let mut writer = Writer { diagram: &diagram, ways, guards: Vec::new() };
    writer.guard(&diagram.root, event);
    Ok(lines(&diagram, event, &writer.guards, ways))
}

/// A drawing that has too many events, but not for this writer.
fn let_in(ways: Ways, text: &[u8]) -> Option<Diagram> {
    let too_many = MACHINE_EVENTS + 1..=ways.most_events;
    Diagram::of(text).ok().filter(|diagram| too_many.contains(&diagram.events.len()))
}

fn lines(diagram: &Diagram, event: usize, guards: &[String], ways: Ways) -> String {
    let mut lines = format!("event {}\nwhere\n", variable(&diagram.events[event]));
    for (at, guard) in guards.iter().enumerate() {
        writeln!(lines, "@grd_{} {guard}", at + ways.first_guard).expect("a string takes all that is written");
    }
    lines += "then\n";
    let kept = if ways.clears { usize::MAX } else { 1 };
    for (at, action) in actions(diagram, event).iter().take(kept).enumerate() {
        writeln!(lines, "@act_{} {action}", at + 1).expect("a string takes all that is written");
    }
    lines + "end\n"
}

// ---------------------------------------------------------------------------
// Guards
// ---------------------------------------------------------------------------

struct Writer<'d> {
    diagram: &'d Diagram,
    ways: Ways,
    guards: Vec<String>,
}

impl Writer<'_> {
    /// What a copy asks of an event of its own, and what those below it do.
    fn guard(&mut self, copy: &Copy, event: usize) {
        let at = copy.below.iter().position(|below| below.events.contains(&event));
        match (copy.kind, at) {
            (Kind::Leaf, _) => self.guards.push(self.is(event, false)),
            (Kind::Flow, Some(at)) => self.guard_in_flow(&copy.below, at),
            (Kind::Xor, Some(at)) => self.guard_in_xor(&copy.below, at),
            // The reset is no event of the body.
            (Kind::Loop, None) => self.guards.extend(self.complete(&copy.below[0])),
            _ => {}
        }
        match at.map(|at| &copy.below[at]) {
            // A loop's leaf is taken again and again.
            Some(below) if copy.kind == Kind::Loop && below.kind == Kind::Leaf => {}
            Some(below) => self.guard(below, event),
            None => {}
        }
    }

    /// All children before are complete, and none after has begun.
    fn guard_in_flow(&mut self, children: &[Copy], at: usize) {
        let mut later = &children[at + 1..];
        if let (Some((_, others)), false) = (later.split_last(), self.ways.all_later_children) {
            later = others;
        }
        let before: Vec<String> = children[..at].iter().filter_map(|child| self.complete(child)).collect();
        self.guards.extend(before);
        self.guards.extend(later.iter().map(|child| self.blank(child)).collect::<Vec<_>>());
    }

    /// No other member has begun.
    fn guard_in_xor(&mut self, members: &[Copy], at: usize) {
        let others = members[..at].iter().chain(&members[at + 1..]);
        self.guards.extend(others.map(|member| self.blank(member)).collect::<Vec<_>>());
    }
}

// ---------------------------------------------------------------------------
// Conditions
// ---------------------------------------------------------------------------

impl Writer<'_> {
    fn is(&self, event: usize, value: bool) -> String {
        let value = if value { "TRUE" } else { "FALSE" };
        format!("{} = {value}", variable(&self.diagram.events[event]))
    }

    fn all_are(&self, events: Range<usize>, value: bool, joint: &str) -> String {
        joined(joint, events.map(|event| self.is(event, value)).collect())
    }

    /// No event of the copy was taken; a reset's bit tells of earlier rounds.
    fn blank(&self, copy: &Copy) -> String {
        self.all_are(copy.events.clone(), false, "&")
    }

    fn begun(&self, copy: &Copy) -> String {
        self.all_are(copy.events.clone(), true, "or")
    }

    /// None for a loop over a leaf, which is always complete.
    fn complete(&self, copy: &Copy) -> Option<String> {
        let each = || copy.below.iter().filter_map(|below| self.complete(below)).collect::<Vec<_>>();
        match copy.kind {
            Kind::Leaf => Some(self.is(copy.events.start, true)),
            Kind::Or if self.ways.members_halfway => {
                let settled = copy.below.iter().filter_map(|member| self.settled(member));
                Some(joined("&", std::iter::once(self.begun(copy)).chain(settled).collect()))
            }
            // Of an xor at most one member has begun.
            Kind::Or | Kind::Xor => Some(joined("or", each())),
            Kind::Loop => self.settled(&copy.below[0]).filter(|_| copy.below[0].kind == Kind::Flow),
            _ => Some(joined("&", each())),
        }
    }

    /// Not halfway.
    fn settled(&self, copy: &Copy) -> Option<String> {
        let complete = self.complete(copy)?;
        Some(joined("or", vec![self.blank(copy), complete]))
    }
}

/// Two sides in each bracket.
fn joined(joint: &str, conditions: Vec<String>) -> String {
    let join = |left: String, right: String| format!("({left} {joint} {right})");
    conditions.into_iter().reduce(join).expect("there is a condition")
}
