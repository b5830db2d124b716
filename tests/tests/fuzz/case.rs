//! One case: all that a comparison is given. It is written as one line of
//! fields `key=value`, and read back from it.

use crate::{eventb, runs, tables, texts};
use reference::eventb::compare::Asked;
use reference::plain::calls::Calls;
use std::collections::BTreeMap;
use std::fmt::{self, Display};
use std::str::FromStr;

#[derive(Clone, Debug, PartialEq)]
pub enum Case {
    Text(TextCase),
    Run(RunCase),
    Table(TableCase),
    /// The Event-B text of a drawing's events.
    Machine(Asked),
}

/// A text, the lengths of the buffers that are lent with it, the indices of
/// nodes and the event numbers that are asked for.
#[derive(Clone, Debug, PartialEq)]
pub struct TextCase {
    pub text: Vec<u8>,
    pub print: usize,
    pub translate: usize,
    pub list: usize,
    pub name: usize,
    pub nodes: Vec<u64>,
    pub events: Vec<u64>,
}

/// A drawing and a list of calls from the blank record on.
#[derive(Clone, Debug, PartialEq)]
pub struct RunCase {
    pub text: Vec<u8>,
    pub calls: Vec<Call>,
}

#[derive(Clone, Copy, Debug, PartialEq)]
pub enum Call {
    Step(u64),
    /// A step through the thin call.
    Update(u64),
    Finished,
}

impl Call {
    /// The event of a step.
    pub fn event(self) -> Option<u64> {
        match self {
            Call::Step(event) | Call::Update(event) => Some(event),
            Call::Finished => None,
        }
    }
}

/// A table with what is done to its bytes, a record, an event number and the
/// length of the buffer that is lent to offer.
#[derive(Clone, Debug, PartialEq)]
pub struct TableCase {
    pub table: Vec<u8>,
    pub damage: Vec<Damage>,
    pub record: Vec<u8>,
    pub event: u64,
    pub offer: usize,
}

#[derive(Clone, Copy, Debug, PartialEq)]
pub enum Damage {
    /// This bit is turned, bit 0 being the top bit of the first byte.
    Bit(usize),
    /// This byte gets this value.
    Byte(usize, u8),
    /// Only so many bytes are left.
    Cut(usize),
    /// This byte is put at the end.
    Longer(u8),
}

impl Case {
    /// What differs between the library and the reference, if anything.
    pub fn difference(&self, library: &Calls) -> Option<String> {
        match self {
            Case::Text(case) => texts::difference(case, library),
            Case::Run(case) => runs::difference(case, library),
            Case::Table(case) => tables::difference(case, library),
            Case::Machine(case) => eventb::difference(case, library),
        }
    }
}

impl TableCase {
    /// The table as the calls get it.
    pub fn damaged(&self) -> Vec<u8> {
        self.damage.iter().fold(self.table.clone(), |table, damage| damage.done_to(table))
    }
}

impl Damage {
    /// A place past the end leaves the table as it is.
    fn done_to(self, mut table: Vec<u8>) -> Vec<u8> {
        match self {
            Damage::Bit(bit) => table.iter_mut().skip(bit / 8).take(1).for_each(|byte| *byte ^= 128 >> (bit % 8)),
            Damage::Byte(at, value) => table.iter_mut().skip(at).take(1).for_each(|byte| *byte = value),
            Damage::Cut(length) => table.truncate(length),
            Damage::Longer(byte) => table.push(byte),
        }
        table
    }
}

// ---------------------------------------------------------------------------
// Writing
// ---------------------------------------------------------------------------

impl Display for Case {
    fn fmt(&self, out: &mut fmt::Formatter) -> fmt::Result {
        match self {
            Case::Text(TextCase { text, print, translate, list, name, nodes, events }) => {
                let (nodes, events, text) = (joined(nodes), joined(events), escaped(text));
                write!(out, "case=text print={print} translate={translate} list={list} name={name} ")?;
                write!(out, "nodes={nodes} events={events} text={text}")
            }
            Case::Run(RunCase { text, calls }) => {
                write!(out, "case=run calls={} text={}", joined(calls), escaped(text))
            }
            Case::Table(TableCase { table, damage, record, event, offer }) => {
                write!(out, "case=table event={event} offer={offer} damage={} ", joined(damage))?;
                write!(out, "record={} table={}", hexadecimal(record), hexadecimal(table))
            }
            Case::Machine(Asked { text, length, numbers, run }) => {
                let (numbers, run, text) = (joined(numbers), joined(run), escaped(text));
                write!(out, "case=machine length={length} numbers={numbers} run={run} text={text}")
            }
        }
    }
}

/// A step is written as its event, one through the thin call with a u before it,
/// a question as a question mark.
impl Display for Call {
    fn fmt(&self, out: &mut fmt::Formatter) -> fmt::Result {
        match self {
            Call::Step(event) => write!(out, "{event}"),
            Call::Update(event) => write!(out, "u{event}"),
            Call::Finished => write!(out, "?"),
        }
    }
}

impl Display for Damage {
    fn fmt(&self, out: &mut fmt::Formatter) -> fmt::Result {
        match self {
            Damage::Bit(bit) => write!(out, "bit:{bit}"),
            Damage::Byte(at, value) => write!(out, "byte:{at}:{value}"),
            Damage::Cut(length) => write!(out, "cut:{length}"),
            Damage::Longer(byte) => write!(out, "longer:{byte}"),
        }
    }
}

fn joined(list: &[impl Display]) -> String {
    list.iter().map(|item| item.to_string()).collect::<Vec<_>>().join(",")
}

/// A text without spaces, as these stand between fields.
fn escaped(text: &[u8]) -> String {
    text.escape_ascii().to_string().replace(' ', "\\x20")
}

fn hexadecimal(bytes: &[u8]) -> String {
    bytes.iter().map(|byte| format!("{byte:02x}")).collect()
}

// ---------------------------------------------------------------------------
// Reading back
// ---------------------------------------------------------------------------

impl FromStr for Case {
    type Err = String;

    fn from_str(line: &str) -> Result<Case, String> {
        let fields = Fields::of(line)?;
        match fields.word("case")? {
            "text" => Ok(Case::Text(TextCase {
                text: unescaped(fields.word("text")?)?,
                print: fields.parsed("print")?,
                translate: fields.parsed("translate")?,
                list: fields.parsed("list")?,
                name: fields.parsed("name")?,
                nodes: fields.list("nodes")?,
                events: fields.list("events")?,
            })),
            "run" => Ok(Case::Run(RunCase { text: unescaped(fields.word("text")?)?, calls: fields.list("calls")? })),
            "table" => Ok(Case::Table(TableCase {
                table: bytes_in(fields.word("table")?)?,
                damage: fields.list("damage")?,
                record: bytes_in(fields.word("record")?)?,
                event: fields.parsed("event")?,
                offer: fields.parsed("offer")?,
            })),
            "machine" => Ok(Case::Machine(Asked {
                text: unescaped(fields.word("text")?)?,
                length: fields.parsed("length")?,
                numbers: fields.list("numbers")?,
                run: fields.list("run")?,
            })),
            other => Err(format!("no case is called {other}")),
        }
    }
}

struct Fields<'l>(BTreeMap<&'l str, &'l str>);

impl<'l> Fields<'l> {
    fn of(line: &'l str) -> Result<Fields<'l>, String> {
        let field = |word: &'l str| word.split_once('=').ok_or_else(|| format!("no field: {word}"));
        line.split_whitespace().map(field).collect::<Result<_, _>>().map(Fields)
    }

    fn word(&self, key: &str) -> Result<&'l str, String> {
        self.0.get(key).copied().ok_or_else(|| format!("{key} is missing"))
    }

    fn parsed<V: FromStr>(&self, key: &str) -> Result<V, String> {
        parsed(self.word(key)?)
    }

    fn list<V: FromStr>(&self, key: &str) -> Result<Vec<V>, String> {
        self.word(key)?.split(',').filter(|item| !item.is_empty()).map(parsed).collect()
    }
}

fn parsed<V: FromStr>(word: &str) -> Result<V, String> {
    word.parse().map_err(|_| format!("cannot read {word}"))
}

impl FromStr for Call {
    type Err = String;

    fn from_str(word: &str) -> Result<Call, String> {
        match word {
            "?" => Ok(Call::Finished),
            event => match event.strip_prefix('u') {
                Some(event) => parsed(event).map(Call::Update),
                None => parsed(event).map(Call::Step),
            },
        }
    }
}

impl FromStr for Damage {
    type Err = String;

    fn from_str(word: &str) -> Result<Damage, String> {
        match word.split(':').collect::<Vec<_>>()[..] {
            ["bit", bit] => Ok(Damage::Bit(parsed(bit)?)),
            ["byte", at, value] => Ok(Damage::Byte(parsed(at)?, parsed(value)?)),
            ["cut", length] => Ok(Damage::Cut(parsed(length)?)),
            ["longer", byte] => Ok(Damage::Longer(parsed(byte)?)),
            _ => Err(format!("no damage: {word}")),
        }
    }
}

/// What `escaped` wrote.
fn unescaped(word: &str) -> Result<Vec<u8>, String> {
    let mut bytes = word.bytes();
    let mut text = Vec::new();
    while let Some(byte) = bytes.next() {
        text.push(match byte {
            b'\\' => unescaped_byte(&mut bytes).ok_or_else(|| format!("no escaped text: {word}"))?,
            byte => byte,
        });
    }
    Ok(text)
}

fn unescaped_byte(bytes: &mut std::str::Bytes) -> Option<u8> {
    match bytes.next()? {
        b'n' => Some(b'\n'),
        b'r' => Some(b'\r'),
        b't' => Some(b'\t'),
        b'x' => byte_of(bytes.next()?, bytes.next()?),
        byte => Some(byte),
    }
}

fn byte_of(high: u8, low: u8) -> Option<u8> {
    let digit = |byte: u8| char::from(byte).to_digit(16);
    Some((digit(high)? << 4 | digit(low)?) as u8)
}

fn bytes_in(word: &str) -> Result<Vec<u8>, String> {
    let pairs = word.as_bytes().chunks(2);
    let bytes = pairs.map(|pair| byte_of(pair[0], *pair.get(1)?));
    bytes.collect::<Option<_>>().ok_or_else(|| format!("no hexadecimal bytes: {word}"))
}
