//! A strict reader of Event-B text: of one event, and of a whole machine as the
//! program prints it. A byte that is not just what card 2 says is an error.

use crate::{is_name, is_word_byte, WORD_LIMIT};
use std::fmt::{self, Display};
use std::ops::Range;

/// What one event's text says.
#[derive(Clone, Debug, PartialEq, Eq)]
pub struct EventText {
    pub name: String,
    pub guards: Vec<Formula>,
    pub actions: Vec<Action>,
}

/// A condition on variables, each joint after its two sides: so neither reading
/// nor evaluating it goes deep, however deep its brackets are.
#[derive(Clone, Debug, PartialEq, Eq)]
pub struct Formula(pub Vec<Part>);

#[derive(Clone, Debug, PartialEq, Eq)]
pub enum Part {
    /// The variable has this value.
    Is(String, bool),
    Joint(Joint),
}

#[derive(Clone, Copy, Debug, PartialEq, Eq)]
pub enum Joint {
    Both,
    Either,
}

/// The variable gets this value.
#[derive(Clone, Debug, PartialEq, Eq)]
pub struct Action {
    pub variable: String,
    pub value: bool,
}

impl Display for Action {
    fn fmt(&self, out: &mut fmt::Formatter) -> fmt::Result {
        write!(out, "{} := {}", self.variable, if self.value { "TRUE" } else { "FALSE" })
    }
}

/// What a machine's text says. The typing of the variables and their first
/// values are looked at by the reader.
#[derive(Clone, Debug, PartialEq, Eq)]
pub struct MachineText {
    pub name: String,
    pub variables: Vec<String>,
    pub events: Vec<EventText>,
    /// Where each event's text stands.
    pub places: Vec<Range<usize>>,
}

pub type Read<V> = Result<V, String>;

/// Reads the text of one event.
pub fn read_event(text: &[u8]) -> Read<EventText> {
    whole(text, Reader::event)
}

/// Reads the text of a machine.
pub fn read_machine(text: &[u8]) -> Read<MachineText> {
    whole(text, Reader::machine)
}

fn whole<'t, V>(text: &'t [u8], read: fn(&mut Reader<'t>) -> Read<V>) -> Read<V> {
    let mut reader = Reader { text, place: 0 };
    let value = read(&mut reader)?;
    match reader.place == text.len() {
        true => Ok(value),
        false => reader.wrong("the end of the text"),
    }
}

/// Goes over the bytes from left to right and never back.
struct Reader<'t> {
    text: &'t [u8],
    place: usize,
}

impl Reader<'_> {
    fn left(&self) -> &[u8] {
        &self.text[self.place..]
    }

    fn wrong<V>(&self, wanted: &str) -> Read<V> {
        let next = &self.left()[..self.left().len().min(30)];
        let wanted = wanted.escape_default();
        Err(format!("at byte {}: should be {wanted}, is \"{}\"", self.place, next.escape_ascii()))
    }

    fn is_at(&self, word: &str) -> bool {
        self.left().starts_with(word.as_bytes())
    }

    fn takes(&mut self, word: &str) -> bool {
        let is_here = self.is_at(word);
        self.place += if is_here { word.len() } else { 0 };
        is_here
    }

    fn word(&mut self, word: &str) -> Read<()> {
        match self.takes(word) {
            true => Ok(()),
            false => self.wrong(word),
        }
    }

    /// A line that is always the same.
    fn line(&mut self, line: &str) -> Read<()> {
        self.word(&format!("{line}\n"))
    }

    /// A name of the drawing.
    fn name(&mut self) -> Read<String> {
        let length = self.left().iter().take_while(|byte| is_word_byte(**byte)).count();
        let name = String::from_utf8_lossy(&self.left()[..length]).into_owned();
        if !is_name(&name) || length > WORD_LIMIT {
            return self.wrong("a name");
        }
        self.place += length;
        Ok(name)
    }

    /// A leaf's or a reset's, by the mark before the name.
    fn variable(&mut self) -> Read<String> {
        for mark in ["v_", "r_"] {
            if self.takes(mark) {
                return Ok(format!("{mark}{}", self.name()?));
            }
        }
        self.wrong("a variable")
    }

    fn value(&mut self) -> Read<bool> {
        match (self.takes("TRUE"), self.takes("FALSE")) {
            (true, false) => Ok(true),
            (false, true) => Ok(false),
            _ => self.wrong("TRUE or FALSE"),
        }
    }
}

// ---------------------------------------------------------------------------
// One event
// ---------------------------------------------------------------------------

impl Reader<'_> {
    fn event(&mut self) -> Read<EventText> {
        self.word("event ")?;
        let name = self.variable()?;
        self.line("")?;
        self.line("where")?;
        let guards = self.counted("grd", Reader::formula)?;
        self.line("then")?;
        let actions = self.counted("act", Reader::action)?;
        self.line("end")?;
        Ok(EventText { name, guards, actions })
    }

    /// One line or more, each with its count from 1 on.
    fn counted<V>(&mut self, label: &str, read: fn(&mut Self) -> Read<V>) -> Read<Vec<V>> {
        let mut lines = Vec::new();
        while lines.is_empty() || self.is_at("@") {
            self.word(&format!("@{label}_{} ", lines.len() + 1))?;
            lines.push(read(self)?);
            self.line("")?;
        }
        Ok(lines)
    }

    fn action(&mut self) -> Read<Action> {
        let variable = self.variable()?;
        self.word(" := ")?;
        Ok(Action { variable, value: self.value()? })
    }

    /// Goes on until no bracket is open. Of an open one the joint is known once
    /// its left side was read.
    fn formula(&mut self) -> Read<Formula> {
        let mut parts = Vec::new();
        let mut open: Vec<Option<Joint>> = Vec::new();
        loop {
            while self.takes("(") {
                open.push(None);
            }
            parts.push(self.comparison()?);
            while let Some(Some(joint)) = open.last() {
                parts.push(Part::Joint(*joint));
                self.word(")")?;
                open.pop();
            }
            match open.last_mut() {
                Some(joint) => *joint = Some(self.joint()?),
                None => return Ok(Formula(parts)),
            }
        }
    }

    fn comparison(&mut self) -> Read<Part> {
        let variable = self.variable()?;
        self.word(" = ")?;
        Ok(Part::Is(variable, self.value()?))
    }

    fn joint(&mut self) -> Read<Joint> {
        match (self.takes(" & "), self.takes(" or ")) {
            (true, false) => Ok(Joint::Both),
            (false, true) => Ok(Joint::Either),
            _ => self.wrong("& or or, a space on each side"),
        }
    }
}

// ---------------------------------------------------------------------------
// A whole machine
// ---------------------------------------------------------------------------

impl Reader<'_> {
    fn machine(&mut self) -> Read<MachineText> {
        self.word("machine ")?;
        let name = self.name()?;
        self.line("")?;
        let variables = self.variables()?;
        self.line("events")?;
        self.line("event INITIALISATION")?;
        self.line("then")?;
        for (at, variable) in variables.iter().enumerate() {
            self.line(&format!("@act_{} {variable} := FALSE", at + 1))?;
        }
        self.line("end")?;
        let (mut events, mut places) = (Vec::new(), Vec::new());
        while !self.is_at("end") {
            let start = self.place;
            events.push(self.event()?);
            places.push(start..self.place);
        }
        self.line("end")?;
        Ok(MachineText { name, variables, events, places })
    }

    /// The variables, and that each of them is Boolean.
    fn variables(&mut self) -> Read<Vec<String>> {
        self.line("variables")?;
        let mut variables = Vec::new();
        while !self.is_at("invariants") {
            variables.push(self.variable()?);
            self.line("")?;
        }
        self.line("invariants")?;
        for (at, variable) in variables.iter().enumerate() {
            self.line(&format!("@inv_{} {variable} : BOOL", at + 1))?;
        }
        Ok(variables)
    }
}
