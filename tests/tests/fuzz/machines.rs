//! Counts what the cases of Event-B text met: which drawings and refusals, which
//! events, and at which records the guards were asked. The library is not asked.

use crate::calls::path_to;
use crate::watch::{
    any_copy, body_of, children_before, is_begun, is_complete, is_halfway, is_late_member, is_loop, is_or,
    is_round_halfway, is_xor,
};
use reference::drawings::nestings;
use reference::eventb::compare::{Asked, Drawing};
use reference::eventb::{asked, EVENTB_LIMIT, MACHINE_EVENTS};
use reference::kit::Counts;
use reference::meaning::{Book, Copy, Diagram, FINISHED, TAKEN};
use reference::plain_eventb::{plain_event, RIGHT};
use reference::{read, Kind, Summary, WORD_LIMIT};
use std::collections::BTreeSet;

pub const MACHINES: [&str; 30] = [
    "machine of one event",
    "machine of 32 events",
    "machine of depth 12",
    "machine with all names of 24 bytes",
    "machine with three or's around an event",
    "machine with three loops around an event",
    "machine with a plain text of over 8,000 bytes",
    "machine with an event beside a loop over a leaf",
    "machine with a reset",
    "machine with a reset that clears another",
    "eventb 16 for 33 events",
    "eventb 16 for replicators of size 1 alone",
    "eventb 16 for replicators and over 32 events",
    "eventb 16 where the number is past E",
    "eventb 1 where 5 would be",
    "eventb 1 where 14 would be",
    "eventb 1 where 16 would be",
    "guards asked: blank record",
    "guards asked: or with a member halfway",
    "guards asked: or with two members begun",
    "guards asked: or gone past, a member not begun",
    "guards asked: another branch of an xor begun",
    "guards asked: loop just reset",
    "guards asked: loop just reset, in an xor",
    "guards asked: round halfway",
    "guards asked: round over, not reset so far",
    "guards asked: gone on after a round not reset",
    "guards asked: leaf of a loop taken, successor not",
    "guards asked: reset over a reset's bit taken",
    "guards asked: whole run",
];

const OUTER: [&str; 4] = ["and", "or", "xor", "loop"];

/// Each constructor that a machine may have inside each other.
pub fn machine_nestings() -> Vec<String> {
    let inner = |outer| OUTER.iter().chain(&["leaf loop"]).map(move |inner| format!("machine with {inner} in {outer}"));
    OUTER.iter().flat_map(inner).collect()
}

pub fn add_machine(case: &Asked, drawing: &Drawing, counts: &mut Counts) {
    case.numbers.iter().for_each(|number| add_refusals(case, drawing, *number, counts));
    let summary = read(&case.text);
    match (drawing, &summary) {
        (Ok(diagram), Ok(summary)) => {
            add_traits(case, diagram, summary, counts);
            add_records(diagram, &case.run, counts);
        }
        (Err((16, 0)), Ok(summary)) => add_outside(summary, counts),
        _ => {}
    }
}

// ---------------------------------------------------------------------------
// What is turned away
// ---------------------------------------------------------------------------

/// The sizes of all replicators.
pub fn sizes_of(summary: &Summary) -> Vec<usize> {
    let size = |kind| match kind {
        Kind::All(size) | Kind::Some(size) | Kind::One(size) => Some(size),
        _ => None,
    };
    summary.nodes.iter().filter_map(|node| size(node.kind)).collect()
}

fn add_outside(summary: &Summary, counts: &mut Counts) {
    let sizes = sizes_of(summary);
    let (few, size_1) = (summary.events <= MACHINE_EVENTS, sizes.iter().all(|size| *size == 1));
    counts.add_if(sizes.is_empty() && summary.events == MACHINE_EVENTS + 1, "eventb 16 for 33 events");
    counts.add_if(few && size_1, "eventb 16 for replicators of size 1 alone");
    counts.add_if(!few && !sizes.is_empty(), "eventb 16 for replicators and over 32 events");
}

/// Where two refusals apply.
fn add_refusals(case: &Asked, drawing: &Drawing, number: u64, counts: &mut Counts) {
    let events = read(&case.text).map_or(0, |summary| summary.events as u64);
    match (asked(drawing, number, case.length), asked(drawing, number, EVENTB_LIMIT)) {
        (Err((1, 0)), Err((other @ (5 | 14 | 16), _))) => counts.add(&format!("eventb 1 where {other} would be")),
        (Err((16, 0)), _) => counts.add_if(number >= events, "eventb 16 where the number is past E"),
        _ => {}
    }
}

// ---------------------------------------------------------------------------
// Drawings and events
// ---------------------------------------------------------------------------

/// Once for each machine.
fn add_traits(case: &Asked, diagram: &Diagram, summary: &Summary, counts: &mut Counts) {
    let events = 0..diagram.events.len();
    let long = |event: u64| plain_event(RIGHT, &case.text, event).is_ok_and(|text| text.len() > 8_000);
    let clears_a_reset = |event: usize| {
        let mut cleared = diagram.events[event].cleared.clone();
        cleared.any(|inner| diagram.events[inner].reset)
    };
    counts.add_if(events.len() == 1, "machine of one event");
    counts.add_if(events.len() == MACHINE_EVENTS, "machine of 32 events");
    counts.add_if(summary.nodes.iter().any(|node| node.depth == 12), "machine of depth 12");
    let long_names = diagram.events.iter().all(|event| event.name.len() == WORD_LIMIT);
    counts.add_if(long_names, "machine with all names of 24 bytes");
    counts.add_if(most_around(&diagram.root, is_or) >= 3, "machine with three or's around an event");
    counts.add_if(most_around(&diagram.root, is_loop) >= 3, "machine with three loops around an event");
    let any_long = long_names && events.clone().any(|event| long(event as u64));
    counts.add_if(any_long, "machine with a plain text of over 8,000 bytes");
    counts.add_if(any_copy(&diagram.root, &is_beside_leaf_loop), "machine with an event beside a loop over a leaf");
    counts.add_if(diagram.events.iter().any(|event| event.reset), "machine with a reset");
    counts.add_if(events.clone().any(clears_a_reset), "machine with a reset that clears another");
    let inside: BTreeSet<String> = nestings(&summary.nodes).into_iter().collect();
    inside.iter().for_each(|nesting| counts.add(&format!("machine with {nesting}")));
}

/// How many copies of a kind are around some event.
fn most_around(copy: &Copy, is_kind: fn(Kind) -> bool) -> usize {
    let below = copy.below.iter().map(|below| most_around(below, is_kind)).max().unwrap_or(0);
    below + usize::from(is_kind(copy.kind))
}

fn is_leaf_loop(copy: &Copy) -> bool {
    is_loop(copy.kind) && copy.below[0].kind == Kind::Leaf
}

fn is_beside_leaf_loop(copy: &Copy) -> bool {
    copy.kind == Kind::Flow && copy.below.len() > 1 && copy.below.iter().any(is_leaf_loop)
}

// ---------------------------------------------------------------------------
// Records
// ---------------------------------------------------------------------------

/// At how many records each situation was met.
fn add_records(diagram: &Diagram, run: &[u64], counts: &mut Counts) {
    let mut book = Book::new(diagram);
    counts.add("guards asked: blank record");
    for event in run {
        let inner_reset = clears_a_set_reset(diagram, &book, *event);
        if book.step(*event) == TAKEN {
            counts.add_if(inner_reset, "guards asked: reset over a reset's bit taken");
            add_record(diagram, &book, counts);
        }
    }
}

fn clears_a_set_reset(diagram: &Diagram, book: &Book, event: u64) -> bool {
    let cleared = diagram.events.get(event as usize).map_or(0..0, |event| event.cleared.clone());
    cleared.clone().any(|inner| diagram.events[inner].reset && book.is_set(inner))
}

fn add_record(diagram: &Diagram, book: &Book, counts: &mut Counts) {
    let any = |holds: &dyn Fn(&Copy) -> bool| any_copy(&diagram.root, holds);
    let is_reset = |copy: &Copy| body_of(copy).is_some_and(|body| is_begun(copy, book) && !is_begun(body, book));
    let branches = |copy: &Copy| copy.below.iter().filter(|below| is_begun(below, book)).count();
    counts.add_if(any(&|copy| is_halfway(copy, diagram, book)), "guards asked: or with a member halfway");
    counts.add_if(any(&|copy| is_or(copy.kind) && branches(copy) > 1), "guards asked: or with two members begun");
    counts.add_if(any(&|copy| is_xor(copy.kind) && branches(copy) > 0), "guards asked: another branch of an xor begun");
    counts.add_if(any(&is_reset), "guards asked: loop just reset");
    let in_xor = |copy: &Copy| is_xor(copy.kind) && any_copy(copy, &is_reset);
    counts.add_if(any(&in_xor), "guards asked: loop just reset, in an xor");
    counts.add_if(any(&|copy| is_round_halfway(copy, diagram, book)), "guards asked: round halfway");
    let is_over = |body: &Copy| is_begun(body, book) && is_complete(body, diagram, book);
    let is_round_over = |copy: &Copy| body_of(copy).is_some_and(is_over);
    counts.add_if(any(&is_round_over), "guards asked: round over, not reset so far");
    counts.add_if(any(&|copy| has_open_leaf_loop(copy, book)), "guards asked: leaf of a loop taken, successor not");
    counts.add_if(book.finished() == FINISHED, "guards asked: whole run");
    let last = *book.taken().last().expect("an event was taken");
    let gone_on = children_before(&path_to(&diagram.root, last)).into_iter().any(is_round_over);
    counts.add_if(gone_on, "guards asked: gone on after a round not reset");
    let late = |event: usize| is_late_member(&path_to(&diagram.root, event), book);
    counts.add_if((0..diagram.events.len()).any(late), "guards asked: or gone past, a member not begun");
}

/// A flow in which a loop over a leaf was taken, and nothing after it.
fn has_open_leaf_loop(copy: &Copy, book: &Book) -> bool {
    let begun = copy.below.iter().rposition(|below| is_begun(below, book));
    copy.kind == Kind::Flow && begun.is_some_and(|at| is_leaf_loop(&copy.below[at]))
}
