//! A block of the page as an example: what is given, and what is stated.

use super::page::Block;
use reference::table::{Effect, Row};
use std::ops::RangeInclusive;

/// The numbers for what is turned away.
pub const NUMBERS: RangeInclusive<u8> = 1..=16;
/// So many times a drawing may say that a part stands there.
const MOST_TIMES: usize = 20_000;

pub enum Example {
    Drawing(Drawing),
    Table(Vec<TableLine>),
}

/// A text, what the listing program prints for it, and what else is said of it.
pub struct Drawing {
    pub text: Vec<u8>,
    pub listing: Vec<String>,
    /// Lines of the listing are left out at its end.
    pub cut: bool,
    /// The place that a mark under the text shows.
    pub mark: Option<usize>,
    pub said: Vec<Said>,
}

/// What is asked of a drawing, and the answer in the page's words.
pub struct Said {
    pub question: Question,
    pub answer: String,
}

pub enum Question {
    Run(Vec<String>),
    Record(Vec<String>),
    Print(usize),
    Translate(usize),
    Name(u64),
    Values(u64),
    /// An event, and how many bytes are lent.
    Event(u64, usize),
}

/// Bytes that are given, or that were left; or a C call with its answer.
pub enum TableLine {
    Table(Vec<u8>),
    Record(Vec<u8>),
    RecordLeft(Vec<u8>),
    OfferLeft(Vec<u8>),
    Check(u8),
    Step(u64, u8),
    Offer(usize, u8),
    Finished(u8),
}

impl Example {
    pub fn of(block: &Block) -> Result<Example, String> {
        match block.lines.first() {
            Some(line) if line.starts_with("table =") => table_lines(&block.lines).map(Example::Table),
            _ => drawing(&block.lines).map(Example::Drawing),
        }
    }

    /// The numbers of the refusals that it states.
    pub fn numbers(&self) -> Vec<u8> {
        match self {
            Example::Drawing(drawing) => drawing.answers().filter_map(refusal).map(|(number, _)| number).collect(),
            Example::Table(lines) => lines.iter().filter_map(TableLine::number).collect(),
        }
    }
}

impl Drawing {
    fn answers(&self) -> impl Iterator<Item = &str> {
        self.listing.iter().map(String::as_str).chain(self.said.iter().map(|said| said.answer.as_str()))
    }

    /// Number and place, where the text is turned away.
    pub fn refusal(&self) -> Option<(u8, usize)> {
        self.listing.first().and_then(|line| refusal(line))
    }
}

impl TableLine {
    /// Neither 0 nor 255 is a refusal's.
    fn number(&self) -> Option<u8> {
        match *self {
            TableLine::Check(number) | TableLine::Finished(number) => Some(number),
            TableLine::Step(_, number) | TableLine::Offer(_, number) => Some(number),
            _ => None,
        }
        .filter(|number| NUMBERS.contains(number))
    }
}

/// `refused`, number and place.
fn refusal(line: &str) -> Option<(u8, usize)> {
    let (number, place) = line.strip_prefix("refused ")?.split_once(' ')?;
    Some((number.parse().ok()?, place.parse().ok()?))
}

// ---------------------------------------------------------------------------
// Drawings
// ---------------------------------------------------------------------------

fn drawing(lines: &[&str]) -> Result<Drawing, String> {
    let given = lines.iter().take_while(|line| !is_stated(line)).count();
    let (text, stated) = lines.split_at(given);
    let mut drawing =
        Drawing { text: expanded(&text.join("\n"))?, listing: Vec::new(), cut: false, mark: None, said: Vec::new() };
    for line in stated {
        drawing.add(line, text)?;
    }
    if drawing.listing.is_empty() && drawing.said.is_empty() {
        return Err("nothing is stated of the drawing".to_string());
    }
    Ok(drawing)
}

fn is_stated(line: &str) -> bool {
    line.trim() == "^" || line.starts_with("-> ") || line.contains(" -> ")
}

impl Drawing {
    fn add(&mut self, line: &str, text: &[&str]) -> Result<(), String> {
        if line == "-> .." {
            self.cut = true;
        } else if let Some(listed) = line.strip_prefix("-> ") {
            self.listing.push(listed.to_string());
        } else if line.trim() == "^" && text.len() == 1 && text[0].len() == self.text.len() {
            self.mark = line.find('^');
        } else if let Some((question, answer)) = line.split_once(" -> ") {
            self.said.push(Said { question: question_of(question)?, answer: answer.to_string() });
        } else {
            return Err(format!("not understood: {line}"));
        }
        Ok(())
    }
}

fn question_of(line: &str) -> Result<Question, String> {
    let Some((call, rest)) = line.split_once(' ').filter(|(call, _)| call.contains("::") || *call == "record") else {
        return Ok(Question::Run(events(line)));
    };
    let question = match call {
        "record" => rest.strip_prefix("after ").map(|list| Question::Record(events(list))),
        "printer::print" => room(rest).map(Question::Print),
        "translator::translate" => room(rest).map(Question::Translate),
        "events::name" => rest.parse().ok().map(Question::Name),
        "events::values" => rest.parse().ok().map(Question::Values),
        "eventb::event" => event_and_room(rest),
        _ => None,
    };
    question.ok_or_else(|| format!("no call: {line}"))
}

/// `nothing` is the empty list.
fn events(list: &str) -> Vec<String> {
    match list {
        "nothing" => Vec::new(),
        _ => list.split(", ").map(str::to_string).collect(),
    }
}

/// `E into N bytes`
fn event_and_room(words: &str) -> Option<Question> {
    let (event, lent) = words.split_once(' ')?;
    Some(Question::Event(event.parse().ok()?, room(lent)?))
}

/// `into N bytes`
fn room(words: &str) -> Option<usize> {
    words.strip_prefix("into ")?.strip_suffix(" bytes")?.parse().ok()
}

/// A part in braces stands as often as the number after it says, `#` being the
/// count.
fn expanded(text: &str) -> Result<Vec<u8>, String> {
    let Some((before, rest)) = text.split_once('{') else {
        return Ok(text.as_bytes().to_vec());
    };
    let (part, rest) = rest.split_once("}*").ok_or("a brace without its end")?;
    let digits = rest.len() - rest.trim_start_matches(|sign: char| sign.is_ascii_digit()).len();
    let times = rest[..digits].parse().ok().filter(|times| *times <= MOST_TIMES).ok_or("how often?")?;
    let parts: String = (1..=times).map(|at: usize| part.replace('#', &at.to_string())).collect();
    Ok([before.as_bytes(), parts.as_bytes(), &expanded(&rest[digits..])?].concat())
}

// ---------------------------------------------------------------------------
// Tables
// ---------------------------------------------------------------------------

fn table_lines(lines: &[&str]) -> Result<Vec<TableLine>, String> {
    let mut read = Vec::new();
    let mut lines = lines.iter().peekable();
    while let Some(line) = lines.next() {
        if *line == "table =" {
            let mut words = Vec::new();
            while let Some(word) = lines.next_if(|line| line.starts_with("  ")) {
                words.push(word.split_once("  # ").ok_or_else(|| format!("no remark: {word}"))?);
            }
            read.push(TableLine::Table(remarked(&words)?));
        } else {
            read.push(table_line(line).ok_or_else(|| format!("not understood: {line}"))?);
        }
    }
    Ok(read)
}

fn table_line(line: &str) -> Option<TableLine> {
    if let Some((what, given)) = line.split_once(" = ") {
        return match what {
            "table" => bytes(given).map(TableLine::Table),
            "record" => bytes(given).map(TableLine::Record),
            _ => None,
        };
    }
    let (asked, answer) = line.split_once(" -> ")?;
    let (call, rest) = asked.split_once(' ').unwrap_or((asked, ""));
    match (call, rest) {
        ("record", "") => bytes(answer).map(TableLine::RecordLeft),
        ("offer", "") => bytes(answer).map(TableLine::OfferLeft),
        ("adl_check", "") => answer.parse().ok().map(TableLine::Check),
        ("adl_finished", "") => answer.parse().ok().map(TableLine::Finished),
        ("adl_step", event) => Some(TableLine::Step(event.parse().ok()?, answer.parse().ok()?)),
        ("adl_offer", lent) => Some(TableLine::Offer(room(lent)?, answer.parse().ok()?)),
        _ => None,
    }
}

/// Pairs of hexadecimal digits, `00*64` being 64 times the same one.
pub fn bytes(line: &str) -> Option<Vec<u8>> {
    let mut bytes = Vec::new();
    for word in line.split_whitespace() {
        let (pair, times) = word.split_once('*').unwrap_or((word, "1"));
        let byte = u8::from_str_radix(pair, 16).ok().filter(|_| pair.len() == 2)?;
        bytes.resize(bytes.len() + times.parse::<usize>().ok()?, byte);
    }
    Some(bytes)
}

/// Bytes as `bytes` reads them.
pub fn told_bytes(bytes: &[u8]) -> String {
    let runs = bytes.chunk_by(|one, next| one == next).map(|run| match run.len() {
        1 => format!("{:02X}", run[0]),
        times => format!("{:02X}*{times}", run[0]),
    });
    runs.collect::<Vec<_>>().join(" ")
}

/// The bytes of a table's words, whose remarks say what they hold.
fn remarked(words: &[(&str, &str)]) -> Result<Vec<u8>, String> {
    let mut table = Vec::new();
    for (at, (line, remark)) in words.iter().enumerate() {
        let word: [u8; 4] =
            bytes(line).and_then(|word| word.try_into().ok()).ok_or_else(|| format!("no word: {line}"))?;
        table.extend(word);
        let wanted = remark_of(&table, at, word);
        if *remark != wanted {
            return Err(format!("the remark of {line} is not: {wanted}"));
        }
    }
    Ok(table)
}

fn remark_of(table: &[u8], at: usize, word: [u8; 4]) -> String {
    let events = usize::from(u16::from_be_bytes([table[0], table[1]]));
    if at == 0 {
        return format!("E {events}, R {}", u16::from_be_bytes([table[2], table[3]]));
    }
    if at <= events {
        let Effect { guard, first, count } = Effect::of(word);
        return format!("event {}: guard row {guard}, first {first}, count {count}", at - 1);
    }
    let Row { kind, left, right } = Row::of(word);
    format!("row {}: kind {kind}, left {left}, right {right}", at - 1 - events)
}
