//! A call that writes the text of one event, held against the reference: its
//! answers, every byte that it was lent, and the machine that its texts make,
//! played beside the book. A difference is told in words.

use super::machine::Machine;
use super::text::{read_event, EventText};
use super::{asked, drawing_of, event_fault, variables, EVENTB_LIMIT};
use crate::kit::{refusal_number, Lent};
use crate::meaning::{Book, Diagram, TAKEN};
use crate::Refusal;
use std::collections::{BTreeSet, VecDeque};

/// A text and an event number, and a lent buffer: the number of bytes written,
/// or number * 2^32 + place for a refusal.
pub type Call = fn(&[u8], u64, &mut [u8]) -> u64;

pub type Drawing = Result<Diagram, Refusal>;

/// The bytes lent beyond the limit when all events are asked for.
const LONGER: usize = 5;

/// All that one text is asked for.
#[derive(Clone, Debug, PartialEq)]
pub struct Asked {
    pub text: Vec<u8>,
    /// The length of the buffer that is lent for each of the event numbers.
    pub length: usize,
    pub numbers: Vec<u64>,
    /// The events that are tried one after the other on the machine.
    pub run: Vec<u64>,
}

/// How many bytes the longest text of the drawing's machine has, 0 if it has
/// none, or what differs.
pub fn held(asked: &Asked, call: Call) -> Result<usize, String> {
    let Asked { text, length, numbers, run } = asked;
    if let Some(difference) = numbers_difference(text, numbers, *length, call) {
        return Err(difference);
    }
    let Some(mut made) = machine_of(text, call)? else { return Ok(0) };
    match run_difference(&mut made.machine, &made.diagram, run) {
        Some(difference) => Err(difference),
        None => Ok(made.longest),
    }
}

// ---------------------------------------------------------------------------
// One call
// ---------------------------------------------------------------------------

/// What is wrong with the answers to these event numbers, all with a buffer of
/// this length.
pub fn numbers_difference(text: &[u8], numbers: &[u64], length: usize, call: Call) -> Option<String> {
    let drawing = drawing_of(text);
    let lent = Lent::text(text);
    let one = |number: &u64| {
        let difference = event_written(&lent, &drawing, *number, length, call).err()?;
        Some(format!("event {number} to {length} bytes: {difference}"))
    };
    numbers.iter().find_map(one)
}

/// What the call says of an event, if it is not to be turned away.
fn event_written(
    text: &Lent,
    drawing: &Drawing,
    number: u64,
    length: usize,
    call: Call,
) -> Result<Option<Written>, String> {
    let mut buffer = Lent::buffer(length, number as usize % 251 + text.bytes().len());
    let given = call(text.bytes(), number, buffer.bytes_mut());
    if let Some(change) = text.change() {
        return Err(format!("the text: {change}"));
    }
    match asked(drawing, number, length) {
        Ok((diagram, event)) => read_written(&buffer, given, diagram, event).map(Some),
        Err(refusal) => match (given == refusal_number(refusal), buffer.change()) {
            (true, None) => Ok(None),
            (true, Some(change)) => Err(format!("refused, and the buffer {change}")),
            (false, _) => Err(format!("the answer is {}, should be {}", in_words(given), shown(refusal))),
        },
    }
}

/// What was written for an event, and how many bytes.
pub struct Written {
    pub event: EventText,
    pub length: usize,
}

fn read_written(buffer: &Lent, given: u64, diagram: &Diagram, event: usize) -> Result<Written, String> {
    let length = usize::try_from(given).unwrap_or(usize::MAX);
    let Some(written) = buffer.bytes().get(..length) else {
        return Err(format!("the answer is {}, should be a length", in_words(given)));
    };
    // What stands in these bytes is for the reader to judge.
    if let Some(difference) = buffer.difference(written) {
        return Err(format!("around the {length} bytes written: {difference}"));
    }
    let event_text = read_event(written)?;
    match event_fault(diagram, event, &event_text) {
        Some(fault) => Err(fault),
        None => Ok(Written { event: event_text, length }),
    }
}

/// An answer in plain words.
fn in_words(answer: u64) -> String {
    match answer >> 32 {
        0 => format!("{answer} bytes"),
        number => format!("refusal {number} at {}", answer & 0xFFFF_FFFF),
    }
}

fn shown((number, place): Refusal) -> String {
    format!("refusal {number} at {place}")
}

// ---------------------------------------------------------------------------
// The machine of a drawing
// ---------------------------------------------------------------------------

/// The machine that the call's texts make.
pub struct Made {
    pub diagram: Diagram,
    pub machine: Machine,
    /// How many bytes the longest text has.
    pub longest: usize,
}

/// None for a text that is turned away.
pub fn machine_of(text: &[u8], call: Call) -> Result<Option<Made>, String> {
    let drawing = drawing_of(text);
    let lent = Lent::text(text);
    let Ok(diagram) = &drawing else { return Ok(None) };
    let (mut events, mut longest) = (Vec::new(), 0);
    for number in 0..diagram.events.len() as u64 {
        let length = EVENTB_LIMIT + number as usize % LONGER;
        let written = event_written(&lent, &drawing, number, length, call)
            .map_err(|difference| format!("event {number} to {length} bytes: {difference}"))?;
        let Written { event, length } = written.ok_or("an event of the drawing is turned away")?;
        events.push(event);
        longest = longest.max(length);
    }
    let machine = Machine::new(&variables(diagram), &events)?;
    Ok(drawing.ok().map(|diagram| Made { diagram, machine, longest }))
}

/// Plays a list of events beside a new book, which turns some of them away. At
/// the blank record and after each event taken, every guard is asked.
pub fn run_difference(machine: &mut Machine, diagram: &Diagram, run: &[u64]) -> Option<String> {
    machine.start();
    let mut book = Book::new(diagram);
    record_difference(machine, &book).or_else(|| {
        run.iter().find_map(|event| match book.step(*event) {
            TAKEN => {
                machine.take(*event as usize);
                record_difference(machine, &book)
            }
            _ => None,
        })
    })
}

/// The same at all records that runs reach, so many at most: shortest runs
/// first, and one run to each record, as the record alone tells how a run may go
/// on.
pub fn records_difference(machine: &mut Machine, diagram: &Diagram, most: usize) -> Option<String> {
    let mut seen = BTreeSet::from([[0; 64]]);
    let mut waiting = VecDeque::from([Vec::new()]);
    while let Some(run) = waiting.pop_front() {
        if let Some(difference) = run_end_difference(machine, diagram, &run) {
            return Some(difference);
        }
        let book = book_after(diagram, &run);
        for event in book.next() {
            let longer = [&run[..], &[event as u64]].concat();
            if seen.len() < most && seen.insert(book_after(diagram, &longer).record()) {
                waiting.push_back(longer);
            }
        }
    }
    None
}

fn book_after<'d>(diagram: &'d Diagram, run: &[u64]) -> Book<'d> {
    let mut book = Book::new(diagram);
    run.iter().for_each(|event| assert_eq!(book.step(*event), TAKEN, "{run:?}"));
    book
}

/// The same at the record that a run ends at, and only there.
fn run_end_difference(machine: &mut Machine, diagram: &Diagram, run: &[u64]) -> Option<String> {
    machine.start();
    run.iter().for_each(|event| machine.take(*event as usize));
    record_difference(machine, &book_after(diagram, run))
}

/// The variables are the record's bits, and the guards of each event hold just
/// where a step would take it.
fn record_difference(machine: &Machine, book: &Book) -> Option<String> {
    let next = book.next();
    let differs = |(event, value): (usize, &bool)| {
        if *value != book.is_set(event) {
            return Some(format!("variable {event} is {value}, its bit is not"));
        }
        let (may_take, taken) = (machine.may_take(event), next.contains(&event));
        let difference = || format!("the guards of event {event} say {may_take}, the book {taken}");
        (may_take != taken).then(difference)
    };
    let difference = machine.values().iter().enumerate().find_map(differs)?;
    Some(format!("after {:?}: {difference}", book.taken()))
}
