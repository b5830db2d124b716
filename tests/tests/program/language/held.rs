//! An example held against what somebody answers.

use super::answers::Answers;
use super::example::{told_bytes, Drawing, Example, Question, TableLine};
use reference::listing::Values;
use reference::Refusal;
use std::fmt::Display;

/// Longer than every table.
const TABLE_ROOM: usize = 51_204;

/// What differs between the example and the answers, if anything.
pub fn difference(example: &Example, answers: &impl Answers) -> Option<String> {
    match example {
        Example::Drawing(drawing) => drawing_difference(drawing, answers),
        Example::Table(lines) => {
            let mut table = Played::default();
            lines.iter().find_map(|line| table.difference(line, answers))
        }
    }
}

// ---------------------------------------------------------------------------
// Drawings
// ---------------------------------------------------------------------------

fn drawing_difference(drawing: &Drawing, answers: &impl Answers) -> Option<String> {
    let printed = String::from_utf8_lossy(&answers.listing(&drawing.text)).into_owned();
    let lines: Vec<&str> = printed.lines().collect();
    let shown = &lines[..if drawing.cut { drawing.listing.len().min(lines.len()) } else { lines.len() }];
    if !drawing.listing.is_empty() && *shown != drawing.listing {
        return Some(format!("the listing is\n{printed}"));
    }
    drawing.said.iter().find_map(|said| {
        let answered = answer(&said.question, &drawing.text, &lines, answers);
        (answered != said.answer).then(|| format!("not {}, but {answered}", said.answer))
    })
}

/// An answer in the page's words; `listed` is the listing of the text.
fn answer(question: &Question, text: &[u8], listed: &[&str], answers: &impl Answers) -> String {
    match question {
        Question::Run(events) => verdict(events, text, answers),
        Question::Record(events) => record_after(events, text, listed, answers),
        Question::Print(room) => answers.print(text, *room).map_or_else(refused, |out| shown_or_nothing(&out)),
        Question::Translate(room) => answers.translate(text, *room).map_or_else(refused, |_| "done".to_string()),
        Question::Name(event) => shown_or_nothing(&answers.name(text, *event)),
        Question::Values(event) => answers.values(text, *event).map_or_else(refused, told),
        Question::Event(event, room) => answers.event(text, *event, *room).map_or_else(refused, |_| "done".to_string()),
    }
}

fn refused((number, place): Refusal) -> String {
    format!("refused {number} {place}")
}

fn shown_or_nothing(bytes: &[u8]) -> String {
    match bytes {
        [] => "nothing".to_string(),
        _ => String::from_utf8_lossy(bytes).into_owned(),
    }
}

fn told(values: Values) -> String {
    let mark = if values.reset { "reset" } else { "leaf" };
    values.list.iter().fold(mark.to_string(), |told, value| format!("{told} {value}"))
}

/// By the program `play`: three lines before the first event and for each, one at
/// the end.
fn verdict(events: &[String], text: &[u8], answers: &impl Answers) -> String {
    let input = [text, b"\n\n", events.join("\n").as_bytes()].concat();
    let printed = String::from_utf8_lossy(&answers.played(&input)).into_owned();
    let lines: Vec<&str> = printed.lines().collect();
    let Some(end) = lines.get(3 + 3 * events.len()) else {
        return format!("played: {printed}");
    };
    for (at, event) in events.iter().enumerate() {
        let told = lines[3 + 3 * at];
        if told == format!("{event}: refused 15 0") && at + 1 == events.len() {
            return format!("turned away at {event}");
        }
        if told != format!("{event}: done") {
            return told.to_string();
        }
    }
    if *end == "finished" {
        "whole".to_string()
    } else {
        "begins".to_string()
    }
}

/// The record that events lead to, by the table of the drawing.
fn record_after(events: &[String], text: &[u8], listed: &[&str], answers: &impl Answers) -> String {
    let Ok(table) = answers.translate(text, TABLE_ROOM) else {
        return "not translated".to_string();
    };
    let mut record = [0; 64];
    for event in events {
        let number = (0..).zip(&listed[1..]).find(|(number, line)| **line == format!("{number} {event}"));
        let answer = number.map_or(14, |(number, _)| answers.step(&table, &mut record, number));
        if answer != 0 {
            return format!("{event} is refused with {answer}");
        }
    }
    told_bytes(&record)
}

// ---------------------------------------------------------------------------
// Tables
// ---------------------------------------------------------------------------

/// What the lines of a block have given and left so far.
#[derive(Default)]
struct Played {
    table: Vec<u8>,
    record: Vec<u8>,
    offer: Vec<u8>,
}

impl Played {
    fn difference(&mut self, line: &TableLine, answers: &impl Answers) -> Option<String> {
        match line {
            TableLine::Table(bytes) => given(&mut self.table, bytes),
            TableLine::Record(bytes) => given(&mut self.record, bytes),
            TableLine::RecordLeft(bytes) => unequal("record", &told_bytes(&self.record), &told_bytes(bytes)),
            TableLine::OfferLeft(bytes) => unequal("offer", &told_bytes(&self.offer), &told_bytes(bytes)),
            TableLine::Check(number) => unequal("check", &answers.check(&self.table), number),
            TableLine::Finished(number) => unequal("finished", &answers.finished(&self.table, &self.record), number),
            TableLine::Step(event, number) => {
                let before = self.record.clone();
                let answer = answers.step(&self.table, &mut self.record, *event);
                changed(answer, &before, &self.record).or(unequal("step", &answer, number))
            }
            TableLine::Offer(room, number) => {
                let before = vec![0x5A; *room];
                self.offer.clone_from(&before);
                let answer = answers.offer(&self.table, &self.record, &mut self.offer);
                changed(answer, &before, &self.offer).or(unequal("offer", &answer, number))
            }
        }
    }
}

fn given(what: &mut Vec<u8>, bytes: &[u8]) -> Option<String> {
    *what = bytes.to_vec();
    None
}

/// A refusal changes no lent byte.
fn changed(answer: u8, before: &[u8], after: &[u8]) -> Option<String> {
    (answer != 0 && before != after).then(|| format!("refused with {answer}, and changed to {}", told_bytes(after)))
}

fn unequal<V: PartialEq + Display>(what: &str, answered: &V, stated: &V) -> Option<String> {
    (answered != stated).then(|| format!("{what}: not {stated}, but {answered}"))
}
