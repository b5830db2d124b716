//! Random lists of calls, chosen with the help of a book; the library has no
//! say in them.

use crate::case::Call;
use crate::runs::answer_of;
use reference::generate::Random;
use reference::meaning::{Book, Copy, Diagram};
use reference::Kind;

/// How a list of calls goes on: how often of a hundred with an event that may
/// come next, and with which of them.
struct Habit {
    forward: usize,
    which: Which,
}

#[derive(Clone, Copy)]
enum Which {
    /// Leads to the end of the run: leaves loops, starts few members of an or.
    Last,
    /// Goes into every loop.
    First,
    Any,
}

/// How many calls are still made when no event may come any more.
const CALLS_AFTER_THE_END: usize = 8;

pub fn random_calls(diagram: &Diagram, random: &mut Random) -> Vec<Call> {
    let events = diagram.events.len();
    let habit = Habit {
        forward: *random.pick(&[92, 75, 50]),
        which: *random.pick(&[Which::Last, Which::Last, Which::First, Which::Any, Which::Any]),
    };
    let length = random.within(20, 60 + 2 * events);
    let mut book = Book::new(diagram);
    let mut calls = Vec::new();
    let mut after_the_end = 0;
    while calls.len() < length && after_the_end < CALLS_AFTER_THE_END {
        let call = match random_call(diagram, &book, &habit, random) {
            Call::Step(event) if random.once_in(2) => Call::Update(event),
            call => call,
        };
        calls.push(call);
        answer_of(&mut book, call);
        after_the_end += usize::from(book.next().is_empty());
    }
    calls
}

/// The events of such a list.
pub fn random_run(diagram: &Diagram, random: &mut Random) -> Vec<u64> {
    random_calls(diagram, random).into_iter().filter_map(Call::event).collect()
}

fn random_call(diagram: &Diagram, book: &Book, habit: &Habit, random: &mut Random) -> Call {
    if random.below(100) < forward_chance(diagram, book, habit) {
        if let Some(event) = coming_event(book, habit, random) {
            return Call::Step(event as u64);
        }
    }
    let events = diagram.events.len();
    match random.below(11) {
        0..=1 => Call::Finished,
        2 => Call::Step(random.below(events) as u64),
        3..=4 => Call::Step(earlier_event(book, random)),
        5 => Call::Step(past_the_events(events, random)),
        6..=7 => Call::Step(near_event(diagram, book, random) as u64),
        _ => Call::Step(side_event(diagram, book, random) as u64),
    }
}

/// After a reset something else is tried more often: its loop's bits are clear
/// and only the reset's own tells that it has begun.
fn forward_chance(diagram: &Diagram, book: &Book, habit: &Habit) -> usize {
    match book.taken().last() {
        Some(&last) if diagram.events[last].reset => habit.forward / 2,
        _ => habit.forward,
    }
}

fn coming_event(book: &Book, habit: &Habit, random: &mut Random) -> Option<usize> {
    let next = book.next();
    match habit.which {
        _ if next.is_empty() => None,
        _ if random.once_in(5) => Some(*random.pick(&next)),
        Which::Last => next.last().copied(),
        Which::First => next.first().copied(),
        Which::Any => Some(*random.pick(&next)),
    }
}

/// An event that was taken before, mostly one of the last.
fn earlier_event(book: &Book, random: &mut Random) -> u64 {
    let taken = book.taken();
    if taken.is_empty() {
        return 0;
    }
    let back = if random.once_in(3) { taken.len() } else { taken.len().min(4) };
    taken[taken.len() - 1 - random.below(back)] as u64
}

/// A number at or past E: near it, at the edges of number types, or one that
/// would be an event if its upper bits were lost.
pub fn past_the_events(events: usize, random: &mut Random) -> u64 {
    let event = random.below(events.max(1)) as u64;
    let events = events as u64;
    let numbers = [
        events,
        events,
        events + 1,
        events + random.below(600) as u64,
        512,
        513,
        65_535,
        event + (1 << 9),
        event + (1 << 16),
        event + (1 << 32),
        event + (1 << 63),
        u64::MAX,
        u64::MAX - event,
        random.number() | 1 << 40,
    ];
    (*random.pick(&numbers)).max(events)
}

/// An event below one of the copies around the last event taken.
fn near_event(diagram: &Diagram, book: &Book, random: &mut Random) -> usize {
    let last = book.taken().last().copied().unwrap_or(0);
    let path = path_to(&diagram.root, last);
    let events = random.pick(&path).copy.events.clone();
    random.within(events.start, events.end - 1)
}

/// The first event of a neighbour of one of the copies around the last event
/// taken: of a successor, another member, another branch.
fn side_event(diagram: &Diagram, book: &Book, random: &mut Random) -> usize {
    let last = book.taken().last().copied().unwrap_or(0);
    let path = path_to(&diagram.root, last);
    let around = random.pick(&path);
    let side = match around.copy.below.len() {
        0 => around.copy,
        _ if random.once_in(2) => around.copy.below.get(around.way + 1).unwrap_or(around.copy),
        _ => random.pick(&around.copy.below),
    };
    side.events.start
}

/// A copy around an event, and which of those below it has the event.
pub struct Around<'d> {
    pub copy: &'d Copy,
    pub way: usize,
}

/// The copies around an event, the root first. For a reset the last is its
/// loop, of whose body it is not an event.
pub fn path_to(root: &Copy, event: usize) -> Vec<Around<'_>> {
    let mut path = Vec::new();
    let mut copy = root;
    while let Some(way) = copy.below.iter().position(|below| below.events.contains(&event)) {
        path.push(Around { copy, way });
        copy = &copy.below[way];
    }
    if path.is_empty() || copy.kind == Kind::Loop {
        path.push(Around { copy, way: 0 });
    }
    path
}
