//! A player of guard tables, written from document 01 alone, section "The run
//! record and the table". It knows nothing of drawings: it checks a table,
//! works out its rows on a record, and answers as the four C calls do.
//!
//! Nothing is allocated: the sheet of row values lies on the stack.

use crate::meaning::{FINISHED, NOT_FINISHED, NOT_NOW, NO_EVENT, TAKEN};

pub const SOUND: u8 = 0;
pub const OFFERED: u8 = 0;
pub const SHORT_BUFFER: u8 = 1;
pub const UNSOUND_TABLE: u8 = 12;
pub const STRAY_BIT: u8 = 13;

/// The length of a record, and of what offer writes.
pub const RECORD_BYTES: usize = 64;
pub const MOST_EVENTS: usize = 512;
pub const MOST_ROWS: usize = 12_288;

type Record = [u8; RECORD_BYTES];

/// The record as its eight words, the first byte being the top one of the first.
pub type Words = [u64; 8];

pub fn words_of(record: &[u8; RECORD_BYTES]) -> Words {
    let (bytes, _) = record.as_chunks();
    std::array::from_fn(|at| u64::from_be_bytes(bytes[at]))
}

pub fn bytes_of(words: &Words) -> [u8; RECORD_BYTES] {
    std::array::from_fn(|at| words[at / 8].to_be_bytes()[at % 8])
}

// ---------------------------------------------------------------------------
// The four calls
// ---------------------------------------------------------------------------

pub fn check(table: &[u8]) -> u8 {
    match Table::of(table) {
        Some(_) => SOUND,
        None => UNSOUND_TABLE,
    }
}

pub fn step(table: &[u8], record: &mut [u8], event: u64) -> u8 {
    let Ok(record) = <&mut Record>::try_from(record) else {
        return SHORT_BUFFER;
    };
    take(table, record, event).err().unwrap_or(TAKEN)
}

pub fn offer(table: &[u8], record: &[u8], out: &mut [u8]) -> u8 {
    let (Ok(record), Some(out)) = (<&Record>::try_from(record), out.first_chunk_mut()) else {
        return SHORT_BUFFER;
    };
    match open(table, record) {
        Ok(table) => {
            *out = table.offered(record);
            OFFERED
        }
        Err(number) => number,
    }
}

pub fn finished(table: &[u8], record: &[u8]) -> u8 {
    let Ok(record) = <&Record>::try_from(record) else {
        return SHORT_BUFFER;
    };
    match open(table, record) {
        Ok(table) if table.says_finished(record) => FINISHED,
        Ok(_) => NOT_FINISHED,
        Err(number) => number,
    }
}

/// The refusals of a table and a record, in the order of their numbers.
fn open<'t>(table: &'t [u8], record: &Record) -> Result<Table<'t>, u8> {
    let table = Table::of(table).ok_or(UNSOUND_TABLE)?;
    match table.has_stray_bit(record) {
        true => Err(STRAY_BIT),
        false => Ok(table),
    }
}

/// Takes an event, or tells the refusal.
fn take(table: &[u8], record: &mut Record, event: u64) -> Result<(), u8> {
    let table = open(table, record)?;
    let event = usize::try_from(event).ok().filter(|event| *event < table.events.len()).ok_or(NO_EVENT)?;
    let Effect { guard, first, count } = Effect::of(table.events[event]);
    if !table.row_values(record)[guard] {
        return Err(NOT_NOW);
    }
    (first..first + count).for_each(|cleared| record[cleared / 8] &= !bit_in_byte(cleared));
    record[event / 8] |= bit_in_byte(event);
    Ok(())
}

// ---------------------------------------------------------------------------
// The fields
// ---------------------------------------------------------------------------

pub type Word = [u8; 4];

/// An event record: the row that guards the event, and the bits it clears.
#[derive(Clone, Copy, Debug, PartialEq)]
pub struct Effect {
    pub guard: usize,
    pub first: usize,
    pub count: usize,
}

impl Effect {
    /// 14, 9 and 9 bits.
    pub fn of(word: Word) -> Effect {
        let word = u32::from_be_bytes(word) as usize;
        Effect { guard: word >> 18, first: word >> 9 & 0x1FF, count: word & 0x1FF }
    }

    pub fn word(self) -> Word {
        ((self.guard << 18 | self.first << 9 | self.count) as u32).to_be_bytes()
    }

    fn is_sound(&self, event: usize, rows: usize) -> bool {
        let clears_nothing = self.first == 0 && self.count == 0;
        let ends_before_event = self.count >= 1 && self.first + self.count == event;
        self.guard < rows && (clears_nothing || ends_before_event)
    }
}

/// A row: what it says of the bit or the rows that it names.
#[derive(Clone, Copy, Debug, PartialEq)]
pub struct Row {
    pub kind: usize,
    pub left: usize,
    pub right: usize,
}

impl Row {
    /// 2, 15 and 15 bits.
    pub fn of(word: Word) -> Row {
        let word = u32::from_be_bytes(word) as usize;
        Row { kind: word >> 30, left: word >> 15 & 0x7FFF, right: word & 0x7FFF }
    }

    pub fn word(self) -> Word {
        ((self.kind << 30 | self.left << 15 | self.right) as u32).to_be_bytes()
    }

    fn is_sound(&self, row: usize, events: usize) -> bool {
        match self.kind {
            0 => self.left < events && self.right == 0,
            1 => self.left < row && self.right == 0,
            _ => self.left < row && self.right < row,
        }
    }
}

// ---------------------------------------------------------------------------
// A sound table
// ---------------------------------------------------------------------------

struct Table<'t> {
    events: &'t [Word],
    rows: &'t [Word],
}

impl<'t> Table<'t> {
    /// The table in these bytes, if they are one and it is sound.
    fn of(bytes: &'t [u8]) -> Option<Table<'t>> {
        let (words, rest) = bytes.as_chunks();
        let (&[e0, e1, r0, r1], words) = words.split_first()?;
        let events = usize::from(u16::from_be_bytes([e0, e1]));
        let rows = usize::from(u16::from_be_bytes([r0, r1]));
        let in_limits = (1..=MOST_EVENTS).contains(&events) && (1..=MOST_ROWS).contains(&rows);
        if !in_limits || !rest.is_empty() || words.len() != events + rows {
            return None;
        }
        let (events, rows) = words.split_at(events);
        Some(Table { events, rows }).filter(Table::is_sound)
    }

    fn is_sound(&self) -> bool {
        let (events, rows) = (self.events.len(), self.rows.len());
        let mut effects = self.events.iter().enumerate();
        effects.all(|(at, word)| Effect::of(*word).is_sound(at, rows))
            && self.rows.iter().enumerate().all(|(at, word)| Row::of(*word).is_sound(at, events))
    }

    fn has_stray_bit(&self, record: &Record) -> bool {
        let (byte, bits) = (self.events.len() / 8, 0xFF >> (self.events.len() % 8));
        let shared = record.get(byte).is_some_and(|shared| shared & bits != 0);
        shared || record.iter().skip(byte + 1).any(|past| *past != 0)
    }

    /// What each row says of a record, the lowest first. Past the last row all
    /// say no.
    fn row_values(&self, record: &Record) -> [bool; MOST_ROWS] {
        let mut values = [false; MOST_ROWS];
        for (at, word) in self.rows.iter().enumerate() {
            let Row { kind, left, right } = Row::of(*word);
            values[at] = match kind {
                0 => is_set(record, left),
                1 => !values[left],
                2 => values[left] & values[right],
                _ => values[left] | values[right],
            };
        }
        values
    }

    fn says_finished(&self, record: &Record) -> bool {
        self.row_values(record)[self.rows.len() - 1]
    }

    /// The bits of the events whose guard says yes.
    fn offered(&self, record: &Record) -> Record {
        let values = self.row_values(record);
        let mut bits = [0; RECORD_BYTES];
        for (event, word) in self.events.iter().enumerate() {
            if values[Effect::of(*word).guard] {
                bits[event / 8] |= bit_in_byte(event);
            }
        }
        bits
    }
}

/// Bit 0 is the top bit of the first byte.
fn bit_in_byte(bit: usize) -> u8 {
    128 >> (bit % 8)
}

fn is_set(record: &Record, bit: usize) -> bool {
    record[bit / 8] & bit_in_byte(bit) != 0
}
