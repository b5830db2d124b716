//! What the program `play` prints for an input, from docs/COURSE.md's account
//! of it, over the reference's own reading, listing and meaning of drawings.

use crate::listing::listing;
use crate::meaning::{Book, Diagram, Event, FINISHED, NO_EVENT, TAKEN};

/// No event is called by so many bytes; of a longer line only these are read.
pub const LINE_LIMIT: usize = 64;

/// The output for a drawing, an empty line, and events, one to a line.
pub fn played(input: &[u8]) -> Vec<u8> {
    let (text, events) = halves(input);
    let listed = listing(text);
    let Ok(diagram) = Diagram::of(text) else {
        return listed;
    };
    let first = listed.split_inclusive(|&byte| byte == b'\n').next().unwrap_or_default();
    let mut book = Book::new(&diagram);
    let mut out = [first, &state(&diagram, &book)].concat();
    for line in events.split(|&byte| byte == b'\n').filter(|line| !line.is_empty()) {
        let said = &line[..line.len().min(LINE_LIMIT)];
        let answer = event_said(&diagram, said).map_or(NO_EVENT, |event| book.step(event as u64));
        out.extend_from_slice(said);
        out.extend_from_slice(answer_line(answer).as_bytes());
        out.extend_from_slice(&state(&diagram, &book));
    }
    let end = if book.finished() == FINISHED { "finished\n" } else { "not finished\n" };
    [&out, end.as_bytes()].concat()
}

/// The drawing up to the first empty line, and what stands after that.
fn halves(input: &[u8]) -> (&[u8], &[u8]) {
    match input.windows(2).position(|pair| pair == b"\n\n") {
        Some(at) => (&input[..=at], &input[at + 2..]),
        None => (input, &[]),
    }
}

fn answer_line(answer: u8) -> String {
    match answer {
        TAKEN => ": done\n".to_string(),
        number => format!(": refused {number} 0\n"),
    }
}

/// An event as a listing calls it: the name, `reset` before a reset's, and the
/// values.
pub fn label(event: &Event) -> String {
    let values: String = event.values.iter().map(|value| format!(" {value}")).collect();
    let mark = if event.reset { "reset " } else { "" };
    format!("{mark}{}{values}", event.name)
}

/// By its number or by its label.
fn event_said(diagram: &Diagram, said: &[u8]) -> Option<usize> {
    let is_said = |(number, event): &(usize, &Event)| {
        number.to_string().as_bytes() == said || label(event).as_bytes() == said
    };
    diagram.events.iter().enumerate().find(is_said).map(|(number, _)| number)
}

fn state(diagram: &Diagram, book: &Book) -> Vec<u8> {
    let shown = |event: usize| format!(" [{event} {}]", label(&diagram.events[event]));
    let bits: String = (0..diagram.events.len()).filter(|&event| book.is_set(event)).map(shown).collect();
    let next: String = book.next().into_iter().map(shown).collect();
    format!("bits{bits}\nnext{next}\n").into_bytes()
}
