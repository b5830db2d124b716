//! Counts which situations a list of calls met, the slips of document 01 and the
//! last rounds of card 1 among them. The library is not asked.

use crate::calls::{path_to, Around};
use crate::case::Call;
use reference::kit::Counts;
use reference::meaning::{holds, runs_of, Book, Copy, Diagram, FINISHED, NOT_NOW, TAKEN};
use reference::Kind;

pub const SITUATIONS: [&str; 22] = [
    "reset taken",
    "loop reset inside an xor",
    "loop reset inside an xor, other branch tried",
    "or with a member halfway, asked whether finished",
    "or with a member halfway, successor tried",
    "or member tried after the successor has begun",
    "leaf tried again after its successor",
    "inner reset's bit cleared by the outer reset",
    "event taken again in a later round",
    "event tried after a whole run",
    "list of over 300 events taken",
    "whole run with the last reset, loop in an xor",
    "whole run with the last reset, loop in an or",
    "whole run with the last reset, loop in a loop",
    "whole run without the last reset, loop in an xor",
    "whole run without the last reset, loop in an or",
    "whole run without the last reset, loop in a loop",
    "event taken after a round without its reset",
    "loop's body halfway, asked whether finished",
    "loop's body halfway, successor tried",
    "reset tried after the successor has begun",
    "reset tried again at once",
];

/// Beyond this number of events the questions that take long are not asked.
const WATCHED_EVENTS: usize = 60;

pub fn watch(diagram: &Diagram, calls: &[Call], counts: &mut Counts) {
    let mut book = Book::new(diagram);
    for call in calls {
        match call {
            Call::Finished => watch_question(diagram, &book, counts),
            Call::Step(event) => watch_step("step", diagram, &mut book, *event, counts),
            Call::Update(event) => watch_step("update", diagram, &mut book, *event, counts),
        }
    }
    counts.add_if(book.taken().len() > 300, "list of over 300 events taken");
    if book.finished() == FINISHED {
        watch_whole(&diagram.root, &mut Vec::new(), &book, counts);
    }
}

/// A whole run: how the last round of each loop over a flow ended, by what
/// stands around the loop.
fn watch_whole(copy: &Copy, around: &mut Vec<Kind>, book: &Book, counts: &mut Counts) {
    if let Some(body) = body_of(copy).filter(|_| is_begun(copy, book)) {
        let end = if is_begun(body, book) { "without" } else { "with" };
        let kinds: [(fn(Kind) -> bool, &str); 3] = [(is_xor, "an xor"), (is_or, "an or"), (is_loop, "a loop")];
        for (is_kind, title) in kinds {
            let inside = around.iter().any(|kind| is_kind(*kind));
            counts.add_if(inside, &format!("whole run {end} the last reset, loop in {title}"));
        }
    }
    around.push(copy.kind);
    copy.below.iter().for_each(|below| watch_whole(below, around, book, counts));
    around.pop();
}

fn watch_question(diagram: &Diagram, book: &Book, counts: &mut Counts) {
    counts.add(&format!("finished {}", book.finished()));
    let watched = diagram.events.len() <= WATCHED_EVENTS;
    let halfway = watched && any_copy(&diagram.root, &|copy| is_halfway(copy, diagram, book));
    counts.add_if(halfway, "or with a member halfway, asked whether finished");
    let in_a_round = watched && any_copy(&diagram.root, &|copy| is_round_halfway(copy, diagram, book));
    counts.add_if(in_a_round, "loop's body halfway, asked whether finished");
}

fn watch_step(call: &str, diagram: &Diagram, book: &mut Book, event: u64, counts: &mut Counts) {
    let was_finished = book.finished() == FINISHED;
    let cleared_resets = is_reset_over_resets(diagram, book, event);
    let answer = book.step(event);
    counts.add(&format!("{call} {answer}"));
    match answer {
        TAKEN => watch_taken(diagram, book, event as usize, cleared_resets, counts),
        NOT_NOW => watch_refused(diagram, book, event as usize, counts),
        _ => {}
    }
    counts.add_if(was_finished, "event tried after a whole run");
}

fn watch_taken(diagram: &Diagram, book: &Book, event: usize, cleared_resets: bool, counts: &mut Counts) {
    let reset = diagram.events[event].reset;
    let before = &book.taken()[..book.taken().len() - 1];
    counts.add_if(reset, "reset taken");
    counts.add_if(reset && is_inside_xor(diagram, event), "loop reset inside an xor");
    counts.add_if(cleared_resets, "inner reset's bit cleared by the outer reset");
    counts.add_if(before.contains(&event), "event taken again in a later round");
    let in_a_round = |copy: &&Copy| body_of(copy).is_some_and(|body| is_begun(body, book));
    let gone_on = children_before(&path_to(&diagram.root, event)).iter().any(in_a_round);
    counts.add_if(gone_on, "event taken after a round without its reset");
}

fn watch_refused(diagram: &Diagram, book: &Book, event: usize, counts: &mut Counts) {
    let path = path_to(&diagram.root, event);
    counts.add_if(shut_by_reset(&path, diagram, book), "loop reset inside an xor, other branch tried");
    counts.add_if(book.is_set(event) && successor_begun(&path, book), "leaf tried again after its successor");
    counts.add_if(is_late_member(&path, book), "or member tried after the successor has begun");
    let watched = diagram.events.len() <= WATCHED_EVENTS;
    let before = children_before(&path);
    let halfway = watched && before.iter().any(|child| is_halfway(child, diagram, book));
    counts.add_if(halfway, "or with a member halfway, successor tried");
    let in_a_round = watched && before.iter().any(|child| is_round_halfway(child, diagram, book));
    counts.add_if(in_a_round, "loop's body halfway, successor tried");
    if diagram.events[event].reset {
        let late = watched && is_round_over(&path, diagram, book) && successor_begun(&path, book);
        counts.add_if(late, "reset tried after the successor has begun");
        counts.add_if(book.taken().last() == Some(&event), "reset tried again at once");
    }
}

/// At a reset: the body of its loop is complete.
fn is_round_over(path: &[Around], diagram: &Diagram, book: &Book) -> bool {
    let body = path.last().and_then(|around| body_of(around.copy)).expect("a reset is a loop's");
    is_begun(body, book) && is_complete(body, diagram, book)
}

pub fn is_or(kind: Kind) -> bool {
    matches!(kind, Kind::Or | Kind::Some(_))
}

pub fn is_xor(kind: Kind) -> bool {
    matches!(kind, Kind::Xor | Kind::One(_))
}

pub fn is_loop(kind: Kind) -> bool {
    kind == Kind::Loop
}

/// The flow of a loop over a flow.
pub fn body_of(copy: &Copy) -> Option<&Copy> {
    copy.below.first().filter(|body| is_loop(copy.kind) && body.kind == Kind::Flow)
}

/// Whether a bit of the copy is set.
pub fn is_begun(copy: &Copy, book: &Book) -> bool {
    copy.events.clone().any(|event| book.is_set(event))
}

pub fn any_copy(copy: &Copy, holds: &dyn Fn(&Copy) -> bool) -> bool {
    holds(copy) || copy.below.iter().any(|below| any_copy(below, holds))
}

fn is_inside_xor(diagram: &Diagram, event: usize) -> bool {
    path_to(&diagram.root, event).iter().any(|around| is_xor(around.copy.kind))
}

/// A reset in whose loop's body the bit of another reset is set.
fn is_reset_over_resets(diagram: &Diagram, book: &Book, event: u64) -> bool {
    let Some(reset) = diagram.events.get(event as usize) else {
        return false;
    };
    reset.cleared.clone().any(|inner| diagram.events[inner].reset && book.is_set(inner))
}

/// Another branch of an xor around has no bit set but those of resets.
fn shut_by_reset(path: &[Around], diagram: &Diagram, book: &Book) -> bool {
    let only_resets = |copy: &Copy| {
        let mut set = copy.events.clone().filter(|&event| book.is_set(event)).peekable();
        set.peek().is_some() && set.all(|event| diagram.events[event].reset)
    };
    path.iter().filter(|around| is_xor(around.copy.kind)).any(|around| {
        let branches = around.copy.below.iter().enumerate();
        branches.filter(|(at, _)| *at != around.way).any(|(_, branch)| only_resets(branch))
    })
}

/// In a flow around, a child right of that with the event has begun.
fn successor_begun(path: &[Around], book: &Book) -> bool {
    let flows = path.iter().filter(|around| around.copy.kind == Kind::Flow);
    flows.flat_map(|around| &around.copy.below[around.way + 1..]).any(|child| is_begun(child, book))
}

/// The event is of a member of an or that has not begun, though the or has and
/// so has something after it.
pub fn is_late_member(path: &[Around], book: &Book) -> bool {
    (0..path.len()).any(|at| {
        let around = &path[at];
        is_or(around.copy.kind)
            && is_begun(around.copy, book)
            && !is_begun(&around.copy.below[around.way], book)
            && successor_begun(&path[..at], book)
    })
}

/// In the flows around, the children left of that with the event.
pub fn children_before<'d>(path: &[Around<'d>]) -> Vec<&'d Copy> {
    let flows = path.iter().filter(|around| around.copy.kind == Kind::Flow);
    flows.flat_map(|around| &around.copy.below[..around.way]).collect()
}

/// A loop over a flow in the middle of a round.
pub fn is_round_halfway(copy: &Copy, diagram: &Diagram, book: &Book) -> bool {
    body_of(copy).is_some_and(|body| is_begun(body, book) && !is_complete(body, diagram, book))
}

/// The events of the copy in this round are a whole run of it.
pub fn is_complete(copy: &Copy, diagram: &Diagram, book: &Book) -> bool {
    holds(&runs_of(copy), &latest(copy, diagram, book))
}

/// An or with a member that is complete and one that is begun but not.
pub fn is_halfway(copy: &Copy, diagram: &Diagram, book: &Book) -> bool {
    if !is_or(copy.kind) {
        return false;
    }
    let begun: Vec<&Copy> = copy.below.iter().filter(|member| is_begun(member, book)).collect();
    let complete = |member: &&&Copy| is_complete(member, diagram, book);
    begun.len() > 1 && (1..begun.len()).contains(&begun.iter().filter(complete).count())
}

/// The events of a copy since the last reset of a loop around it.
fn latest(copy: &Copy, diagram: &Diagram, book: &Book) -> Vec<usize> {
    let is_around = |event: &usize| {
        let cleared = &diagram.events[*event].cleared;
        cleared.start <= copy.events.start && copy.events.end <= cleared.end
    };
    let taken = book.taken();
    let start = taken.iter().rposition(is_around).map_or(0, |at| at + 1);
    taken[start..].iter().copied().filter(|event| copy.events.contains(event)).collect()
}
