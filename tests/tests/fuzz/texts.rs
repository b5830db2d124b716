//! A text read, printed, translated and listed, its nodes, and the names and
//! values of its events.

use crate::case::TextCase;
use crate::translation::translated;
use reference::kit::Lent;
use reference::listing::{events, listing, name_in, values_in, Event, Events};
use reference::plain::calls::Calls;
use reference::{print, proved, read, Refusal, Summary};

pub fn difference(case: &TextCase, library: &Calls) -> Option<String> {
    let text = Lent::text(&case.text);
    let summary = read(&case.text);
    read_difference(&text, &summary, library)
        .or_else(|| case.nodes.iter().find_map(|index| node_difference(&text, &summary, *index)))
        .or_else(|| print_difference(&text, case.print, library))
        .or_else(|| translated(library, &text, &summary, case.translate).err())
        .or_else(|| list_difference(&text, &listing(&case.text), case.list, library))
        .or_else(|| events_difference(&text, case, library))
        .or_else(|| text.change().map(|change| format!("the text: {change}")))
}

fn number_difference(wanted: u64, given: u64) -> Option<String> {
    (given != wanted).then(|| format!("the answer is {}, should be {}", in_words(given), in_words(wanted)))
}

/// An answer of the C functions in plain words.
fn in_words(answer: u64) -> String {
    match answer >> 32 {
        0 => format!("{answer} ({answer:#x})"),
        number => format!("refusal {number} at {}", answer & 0xFFFF_FFFF),
    }
}

fn read_difference(text: &Lent, summary: &Result<Summary, Refusal>, library: &Calls) -> Option<String> {
    number_difference(proved::read_number(summary), (library.read)(text.bytes()))
        .map(|difference| format!("read: {difference}"))
}

fn print_difference(text: &Lent, length: usize, library: &Calls) -> Option<String> {
    let wanted = print(text.bytes(), length);
    let mut buffer = Lent::buffer(length, text.bytes().len());
    let given = (library.print)(text.bytes(), buffer.bytes_mut());
    number_difference(proved::print_number(&wanted), given)
        .or_else(|| buffer.difference(&wanted.unwrap_or_default()))
        .map(|difference| format!("print to {length} bytes: {difference}"))
}

/// Bytes over the front of a buffer, as far as it goes.
fn front(bytes: &[u8], length: usize) -> &[u8] {
    &bytes[..bytes.len().min(length)]
}

/// The listing written to a buffer of some length: what is wrong with it.
pub fn list_difference(text: &Lent, listing: &[u8], length: usize, library: &Calls) -> Option<String> {
    let mut buffer = Lent::buffer(length, text.bytes().len());
    let given = (library.list)(text.bytes(), buffer.bytes_mut());
    number_difference(listing.len() as u64, given)
        .or_else(|| buffer.difference(front(listing, length)))
        .map(|difference| format!("listing to {length} bytes: {difference}"))
}

// ---------------------------------------------------------------------------
// Nodes
// ---------------------------------------------------------------------------

/// The nodes are told by the proved library alone.
fn node_difference(text: &Lent, summary: &Result<Summary, Refusal>, index: u64) -> Option<String> {
    let (node, place) = node_numbers(summary, index);
    let difference = match number_difference(node, proved::node(text.bytes(), index)) {
        None => number_difference(place, proved::place(text.bytes(), index)).map(|place| format!("place, {place}")),
        node => node,
    };
    difference.map(|difference| format!("node {index}: {difference}"))
}

fn node_numbers(summary: &Result<Summary, Refusal>, index: u64) -> (u64, u64) {
    match summary {
        Err(refusal) => (proved::refusal_number(*refusal), proved::refusal_number(*refusal)),
        Ok(summary) => match summary.nodes.get(index as usize) {
            Some(node) => (proved::node_number(node), proved::place_number(node)),
            None => (proved::NO_NODE, proved::NO_NODE),
        },
    }
}

// ---------------------------------------------------------------------------
// Names and values
// ---------------------------------------------------------------------------

/// What is to be told of an event number.
pub type Answer = Result<Event, Refusal>;

pub fn answer_in(events: &Events, number: u64) -> Answer {
    values_in(events, number).map(|values| Event { name: name_in(events, number), values })
}

fn events_difference(text: &Lent, case: &TextCase, library: &Calls) -> Option<String> {
    let events = events(&case.text);
    case.events
        .iter()
        .find_map(|number| event_difference(text, *number, &answer_in(&events, *number), case.name, library))
}

/// What is wrong with the answers to an event number.
pub fn event_difference(text: &Lent, number: u64, event: &Answer, length: usize, library: &Calls) -> Option<String> {
    name_difference(text, number, event, length, library)
        .or_else(|| values_difference(text, number, event, library))
        .map(|difference| format!("event {number}: {difference}"))
}

fn name_difference(text: &Lent, number: u64, event: &Answer, length: usize, library: &Calls) -> Option<String> {
    let wanted = match event {
        Ok(event) => &text.bytes()[event.name.clone()],
        Err(_) => &[],
    };
    let mut buffer = Lent::buffer(length, number as usize);
    let given = (library.name)(text.bytes(), number, buffer.bytes_mut());
    number_difference(wanted.len() as u64, given)
        .or_else(|| buffer.difference(front(wanted, length)))
        .map(|difference| format!("name to {length} bytes: {difference}"))
}

fn values_difference(text: &Lent, number: u64, event: &Answer, library: &Calls) -> Option<String> {
    let values = event.as_ref().map(|event| event.values.clone()).map_err(|refusal| *refusal);
    number_difference(proved::values_number(&values), (library.values)(text.bytes(), number))
        .map(|difference| format!("values: {difference}"))
}
