//! Printing and translation in plain Rust, written from documents 01 and 02
//! alone: the baseline that the proved ones are timed against. They do the same
//! job, from the bytes of a text to the bytes of a lent buffer, with all checks,
//! after the reference's reader. Plain C of all calls is in `c`, and `calls` has
//! all calls of the three side by side.
//!
//! The tree of an accepted text is gone through twice. The first time gives
//! each node copy, here a part, rows for "it has begun" and "it is complete".
//! The second time hands down the row that says whether a part may have events
//! now, and so comes to the guards.
//!
//! What the rows rest on: only a loop is ever complete without an event, as
//! every flow has a solid child, and a child of a flow begins only when all
//! before it are complete. So if a child that is no loop has begun, or is
//! complete, nothing need be asked about the children before it.

#[cfg(adl_archive)]
pub mod c;
#[cfg(adl_archive)]
pub mod calls;

use crate::{accept, is_blank, is_in_remark, summarize, Group, Node, Refusal, Replicator, Shape, Summary, TEXT_LIMIT};
use std::ops::Range;
use std::slice::from_ref;

/// The shortest buffer that translation takes.
pub const TABLE_LIMIT: usize = 51_204;

/// Writes a text without its blanks and remarks to a lent buffer and tells its
/// length. An accepted text has nothing but them and its tokens.
pub fn print(text: &[u8], out: &mut [u8]) -> Result<usize, Refusal> {
    if out.len() < TEXT_LIMIT {
        return Err((1, 0));
    }
    summarize(&accept(text)?)?;
    let mut length = 0;
    let mut in_remark = false;
    for &byte in text {
        in_remark = is_in_remark(in_remark, byte);
        if !in_remark && !is_blank(byte) {
            out[length] = byte;
            length += 1;
        }
    }
    Ok(length)
}

/// Writes the table of a text to a lent buffer and tells its length.
pub fn translate(text: &[u8], out: &mut [u8]) -> Result<usize, Refusal> {
    if out.len() < TABLE_LIMIT {
        return Err((1, 0));
    }
    let root = accept(text)?;
    let summary = summarize(&root)?;
    let mut maker = PartMaker::new(&summary, Table::new(summary.events, out));
    maker.put(0, &root);
    let mut guards = Guards { parts: &maker.parts, table: maker.table };
    guards.allow(&maker.parts[0], None);
    Ok(guards.table.finish(maker.parts[0].state.complete.expect("the root is no loop")))
}

// ---------------------------------------------------------------------------
// The table
// ---------------------------------------------------------------------------

/// The number of a row; the lowest ones are also those of the events.
type Row = u16;

const CONTROL_BIT: u32 = 0;
const NOT: u32 = 1;
const BOTH: u32 = 2;
const EITHER: u32 = 3;

/// Written straight into the lent buffer, whose words are E and R, then the
/// event records, then the rows. Row e is control bit e.
struct Table<'b> {
    words: &'b mut [[u8; 4]],
    events: usize,
    rows: usize,
}

impl<'b> Table<'b> {
    fn new(events: usize, out: &'b mut [u8]) -> Table<'b> {
        let mut table = Table { words: out.as_chunks_mut().0, events, rows: 0 };
        for event in 0..events {
            table.row(CONTROL_BIT, event as Row, 0);
        }
        table
    }

    fn row(&mut self, kind: u32, left: Row, right: Row) -> Row {
        let row = self.rows;
        let word = kind << 30 | u32::from(left) << 15 | u32::from(right);
        self.words[1 + self.events + row] = word.to_be_bytes();
        self.rows += 1;
        row as Row
    }

    fn not(&mut self, row: Row) -> Row {
        self.row(NOT, row, 0)
    }

    /// No row on the left stands for one that always says yes.
    fn both(&mut self, left: Option<Row>, right: Row) -> Row {
        left.map_or(right, |left| self.row(BOTH, left, right))
    }

    /// No row on the left stands for one that always says no.
    fn either(&mut self, left: Option<Row>, right: Row) -> Row {
        left.map_or(right, |left| self.row(EITHER, left, right))
    }

    fn event(&mut self, event: Row, guard: Row, cleared: Range<Row>) {
        let count = cleared.end - cleared.start;
        let record = u32::from(guard) << 18 | u32::from(cleared.start) << 9 | u32::from(count);
        self.words[1 + event as usize] = record.to_be_bytes();
    }

    /// The last row says finished. Tells the length of the table.
    fn finish(&mut self, finished: Row) -> usize {
        self.row(BOTH, finished, finished);
        self.words[0] = ((self.events << 16 | self.rows) as u32).to_be_bytes();
        4 * (1 + self.events + self.rows)
    }
}

// ---------------------------------------------------------------------------
// What has begun and what is complete
// ---------------------------------------------------------------------------

/// One copy of a node.
#[derive(Clone)]
struct Part {
    rule: Rule,
    /// Where the parts directly below stand in the list of all.
    below: Range<u16>,
    events: Range<Row>,
    state: State,
    /// In a flow: says that all before it are complete. None if always so.
    earlier: Option<Row>,
    /// In a flow: says that something after it has begun. None if never so.
    later: Option<Row>,
}

/// What is said of all parts of a rule. Replicators are as the groups.
#[derive(Clone, Copy, PartialEq)]
enum Rule {
    Leaf,
    Flow,
    All,
    Some,
    One,
    Loop,
}

#[derive(Clone, Copy)]
struct State {
    begun: Row,
    /// None if always complete: a loop over a leaf.
    complete: Option<Row>,
    /// Whether events may still come when it is complete.
    goes_on: bool,
}

impl Part {
    fn leaf(event: Row) -> Part {
        let state = State { begun: event, complete: Some(event), goes_on: false };
        Part { rule: Rule::Leaf, below: 0..0, events: event..event + 1, state, earlier: None, later: None }
    }

    fn below<'p>(&self, parts: &'p [Part]) -> &'p [Part] {
        &parts[usize::from(self.below.start)..usize::from(self.below.end)]
    }
}

struct PartMaker<'b> {
    table: Table<'b>,
    /// How many events were met so far.
    events: Row,
    /// The root, then all others, neighbours side by side.
    parts: Vec<Part>,
}

impl<'b> PartMaker<'b> {
    fn new(summary: &Summary, table: Table<'b>) -> PartMaker<'b> {
        let mut parts = Vec::with_capacity(summary.copies);
        parts.push(Part::leaf(0));
        PartMaker { table, events: 0, parts }
    }

    /// Puts a part and all below it, the part itself at this place.
    fn put(&mut self, at: usize, node: &Node) {
        match &node.shape {
            Shape::Leaf { .. } => self.parts[at] = Part::leaf(self.next_event()),
            Shape::Flow { children, .. } => self.put_over(at, Rule::Flow, children, 1),
            Shape::Group { rule, members } => self.put_over(at, rule_of_group(*rule), members, 1),
            Shape::Loop { body } => self.put_over(at, Rule::Loop, from_ref(body), 1),
            Shape::Replicator { rule, size, body, .. } => {
                self.put_over(at, rule_of_replicator(*rule), from_ref(body), *size)
            }
        }
    }

    fn next_event(&mut self) -> Row {
        self.events += 1;
        self.events - 1
    }

    /// Puts a part over so many copies of each of these nodes.
    fn put_over(&mut self, at: usize, rule: Rule, nodes: &[Node], copies: usize) {
        let first_event = self.events;
        let below = self.put_below(nodes, copies);
        let state = self.state(rule, below.clone());
        let below = below.start as u16..below.end as u16;
        let events = first_event..self.events;
        self.parts[at] = Part { rule, below, events, state, earlier: None, later: None };
    }

    /// Keeps room for them side by side, then fills it.
    fn put_below(&mut self, nodes: &[Node], copies: usize) -> Range<usize> {
        let first = self.parts.len();
        let end = first + nodes.len() * copies;
        self.parts.resize(end, Part::leaf(0));
        for (at, node) in (first..end).zip(nodes.iter().cycle()) {
            self.put(at, node);
        }
        first..end
    }

    fn state(&mut self, rule: Rule, below: Range<usize>) -> State {
        if rule == Rule::Loop && self.parts[below.start].rule == Rule::Flow {
            let reset = self.next_event();
            return self.table.rounds(&self.parts[below.start], reset);
        }
        let parts = &mut self.parts[below];
        match rule {
            Rule::Flow => self.table.flow(parts),
            Rule::All => self.table.all_of(parts),
            Rule::Some => self.table.some_of(parts),
            Rule::One => self.table.one_of(parts),
            Rule::Leaf | Rule::Loop => State { complete: None, goes_on: true, ..parts[0].state },
        }
    }
}

fn rule_of_group(group: Group) -> Rule {
    match group {
        Group::And => Rule::All,
        Group::Or => Rule::Some,
        Group::Xor => Rule::One,
    }
}

fn rule_of_replicator(replicator: Replicator) -> Rule {
    match replicator {
        Replicator::All => Rule::All,
        Replicator::Some => Rule::Some,
        Replicator::One => Rule::One,
    }
}

impl Table<'_> {
    /// A flow; tells its children what stands before and after them.
    fn flow(&mut self, children: &mut [Part]) -> State {
        let goes_on = children.last().is_some_and(|last| last.state.goes_on);
        let begun = self.later_rows(children).expect("a flow has children");
        State { begun, complete: self.earlier_rows(children), goes_on }
    }

    /// The row that a further child would get says that the flow is complete.
    fn earlier_rows(&mut self, children: &mut [Part]) -> Option<Row> {
        let mut earlier = None;
        for child in children {
            child.earlier = earlier;
            earlier = match (child.rule, child.state.complete) {
                (Rule::Loop, Some(complete)) => Some(self.both(earlier, complete)),
                (Rule::Loop, None) => earlier,
                (_, complete) => complete,
            };
        }
        earlier
    }

    /// The row that a child before the first would get says that the flow has
    /// begun.
    fn later_rows(&mut self, children: &mut [Part]) -> Option<Row> {
        let mut later = None;
        for child in children.iter_mut().rev() {
            child.later = later;
            later = match child.rule {
                Rule::Loop => Some(self.either(later, child.state.begun)),
                _ => Some(child.state.begun),
            };
        }
        later
    }

    fn all_of(&mut self, members: &[Part]) -> State {
        let begun = self.any_begun(members);
        let mut complete = None;
        for row in members.iter().filter_map(|member| member.state.complete) {
            complete = Some(self.both(complete, row));
        }
        State { begun, complete, goes_on: members.iter().any(|member| member.state.goes_on) }
    }

    fn some_of(&mut self, members: &[Part]) -> State {
        State { goes_on: true, ..self.one_of(members) }
    }

    /// Complete if some member has begun and none is halfway.
    fn one_of(&mut self, members: &[Part]) -> State {
        let begun = self.any_begun(members);
        let mut complete = begun;
        for member in members {
            if let Some(settled) = self.settled(member) {
                complete = self.both(Some(complete), settled);
            }
        }
        State { begun, complete: Some(complete), goes_on: members.iter().any(|member| member.state.goes_on) }
    }

    /// Says that a part is not halfway. None if it can never be.
    fn settled(&mut self, part: &Part) -> Option<Row> {
        if part.state.complete == Some(part.state.begun) {
            return None;
        }
        let blank = self.not(part.state.begun);
        Some(self.either(part.state.complete, blank))
    }

    fn any_begun(&mut self, members: &[Part]) -> Row {
        let (first, others) = members.split_first().expect("a constructor has members");
        others.iter().fold(first.state.begun, |begun, member| self.either(Some(begun), member.state.begun))
    }

    /// A loop over a flow. The reset clears the flow's bits, so the flow has
    /// begun exactly within a round, and the loop is complete unless the flow is
    /// halfway.
    fn rounds(&mut self, flow: &Part, reset: Row) -> State {
        let begun = self.either(Some(reset), flow.state.begun);
        State { begun, complete: self.settled(flow), goes_on: true }
    }
}

// ---------------------------------------------------------------------------
// What may come next
// ---------------------------------------------------------------------------

struct Guards<'p, 'b> {
    parts: &'p [Part],
    table: Table<'b>,
}

impl Guards<'_, '_> {
    /// Guards for the events of a part that may have events only while the
    /// context says yes. None if it always does.
    fn allow(&mut self, part: &Part, context: Option<Row>) {
        match part.rule {
            Rule::Leaf => self.leaf(part, context),
            Rule::Flow => self.flow(part, context),
            Rule::One => self.one_of(part, context),
            Rule::Loop => self.repeated(part, context),
            Rule::All | Rule::Some => part.below(self.parts).iter().for_each(|member| self.allow(member, context)),
        }
    }

    fn leaf(&mut self, leaf: &Part, context: Option<Row>) {
        let blank = self.table.not(leaf.state.begun);
        let guard = self.table.both(context, blank);
        self.table.event(leaf.events.start, guard, 0..0);
    }

    fn flow(&mut self, flow: &Part, context: Option<Row>) {
        for child in flow.below(self.parts) {
            let mut child_context = match child.earlier {
                Some(earlier) => Some(self.table.both(context, earlier)),
                None => context,
            };
            // A child that does not go on is done when a later one has begun.
            if let (Some(later), true) = (child.later, child.state.goes_on) {
                let still = self.table.not(later);
                child_context = Some(self.table.both(child_context, still));
            }
            self.allow(child, child_context);
        }
    }

    /// A member may have events if it was the one to begin, or none was.
    fn one_of(&mut self, part: &Part, context: Option<Row>) {
        let blank = self.table.not(part.state.begun);
        let start = self.table.both(context, blank);
        for member in part.below(self.parts) {
            if member.rule == Rule::Leaf {
                self.table.event(member.events.start, start, 0..0);
            } else {
                let chosen = self.table.either(Some(member.state.begun), blank);
                let member_context = self.table.both(context, chosen);
                self.allow(member, Some(member_context));
            }
        }
    }

    fn repeated(&mut self, part: &Part, context: Option<Row>) {
        let body = &part.below(self.parts)[0];
        if body.rule == Rule::Leaf {
            let guard = context.expect("a loop has a neighbour that is none");
            return self.table.event(body.events.start, guard, 0..0);
        }
        self.allow(body, context);
        let complete = body.state.complete.expect("a flow is no loop");
        let guard = self.table.both(context, complete);
        self.table.event(body.events.end, guard, body.events.clone());
    }
}
