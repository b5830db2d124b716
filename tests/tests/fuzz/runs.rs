//! A drawing translated and a list of calls played beside a book, which knows
//! the drawing and the calls alone.

use crate::case::{Call, RunCase};
use crate::thin::update;
use crate::translation::translated;
use reference::kit::Lent;
use reference::meaning::{Book, Diagram};
use reference::plain::calls::Calls;
use reference::plain::TABLE_LIMIT;
use reference::read;
use reference::table::{OFFERED, RECORD_BYTES};

pub fn difference(case: &RunCase, library: &Calls) -> Option<String> {
    let text = Lent::text(&case.text);
    let summary = read(&case.text);
    let difference = match translated(library, &text, &summary, TABLE_LIMIT) {
        Err(difference) => Some(difference),
        // Only a case that was made smaller has a text that is turned away.
        Ok(None) => None,
        Ok(Some(table)) => {
            let diagram = Diagram::of(&case.text).expect("the text is accepted");
            calls_difference(&table, &diagram, &case.calls, library)
        }
    };
    difference.or_else(|| text.change().map(|change| format!("the text: {change}")))
}

/// Plays a list of calls beside a new book.
fn calls_difference(table: &[u8], diagram: &Diagram, calls: &[Call], library: &Calls) -> Option<String> {
    let table = Lent::bytes_of(table);
    let mut record = Lent::bytes_of(&[0; RECORD_BYTES]);
    let mut book = Book::new(diagram);
    let mut calls = calls.iter().enumerate();
    calls
        .find_map(|(at, call)| {
            call_difference(&table, &mut record, &mut book, *call, library)
                .or_else(|| offer_difference(&table, &record, &book, at, library))
                .map(|difference| format!("call {at}, {call}: {difference}"))
        })
        .or_else(|| table.change().map(|change| format!("the table: {change}")))
}

fn call_difference(table: &Lent, record: &mut Lent, book: &mut Book, call: Call, library: &Calls) -> Option<String> {
    let wanted = answer_of(book, call);
    let given = match call {
        Call::Step(event) => Ok((library.step)(table.bytes(), record.bytes_mut(), event)),
        Call::Update(event) => update(table, record.bytes_mut(), event, library),
        Call::Finished => Ok((library.finished)(table.bytes(), record.bytes())),
    };
    match given {
        Ok(given) if given == wanted => {}
        Ok(given) => return Some(format!("the book says {wanted}, the library {given}")),
        Err(difference) => return Some(difference),
    }
    record.difference(&book.record()).map(|difference| format!("the record: {difference}"))
}

pub fn answer_of(book: &mut Book, call: Call) -> u8 {
    match call {
        Call::Step(event) | Call::Update(event) => book.step(event),
        Call::Finished => book.finished(),
    }
}

/// What offer writes after a call, to buffers of several lengths.
fn offer_difference(table: &Lent, record: &Lent, book: &Book, at: usize, library: &Calls) -> Option<String> {
    let mut buffer = Lent::buffer(RECORD_BYTES + at % 3, at);
    let given = (library.offer)(table.bytes(), record.bytes(), buffer.bytes_mut());
    if given != OFFERED {
        return Some(format!("offer answers {given}"));
    }
    buffer
        .difference(&bits_of(&book.next()))
        .map(|difference| format!("offered: {difference}"))
        .or_else(|| record.difference(&book.record()).map(|difference| format!("the record after offer: {difference}")))
}

/// The bits of these events, bit 0 being the top bit of the first byte.
fn bits_of(events: &[usize]) -> [u8; RECORD_BYTES] {
    let mut bits = [0; RECORD_BYTES];
    events.iter().for_each(|event| bits[event / 8] |= 128 >> (event % 8));
    bits
}
