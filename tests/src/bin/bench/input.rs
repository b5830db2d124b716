//! What the calls are timed on: texts of drawings, their tables, and made tables.

use reference::generate::Random;
use reference::plain::calls::PROVED;
use reference::plain::TABLE_LIMIT;
use reference::read;
use reference::table::{self, RECORD_BYTES};

pub type Record = [u8; RECORD_BYTES];

/// A text or a table, with all that is known of its size; a made table comes
/// from no drawing and has no nodes and copies.
pub struct Input {
    pub title: String,
    pub bytes: Vec<u8>,
    pub nodes: Option<usize>,
    pub copies: Option<usize>,
    pub events: usize,
    pub rows: usize,
    /// For a text the last event, for a table one that may be taken.
    pub event: u64,
    pub record: Record,
}

impl Input {
    /// A text; its rows are those of the proved translation.
    pub fn text(title: &str, text: impl Into<Vec<u8>>) -> Input {
        let bytes = text.into();
        let summary = read(&bytes).expect("the text is accepted");
        Input {
            title: title.to_string(),
            nodes: Some(summary.nodes.len()),
            copies: Some(summary.copies),
            events: summary.events,
            rows: rows_of(&translated(&bytes)),
            event: summary.events as u64 - 1,
            record: [0; RECORD_BYTES],
            bytes,
        }
    }

    /// The table of a text, and a record from the middle of a run.
    pub fn table_of(text: &Input) -> Input {
        let bytes = translated(&text.bytes);
        let record = halfway(&bytes, text.events);
        let event = offered(&bytes, &record).expect("the run goes on") as u64;
        Input { title: text.title.clone(), bytes, event, record, ..*text }
    }

    /// A table that no drawing has, about half of its bits set.
    pub fn made_table(title: &str, events: usize, rows: usize, kinds: Kinds) -> Input {
        let random = &mut Random::new(1);
        let mut words = vec![(events << 16 | rows) as u32];
        words.extend((0..events).map(|event| event_word(event, rows, random)));
        words.extend((0..rows).map(|row| row_word(kinds, row, events, random)));
        let bytes: Vec<u8> = words.iter().flat_map(|word| word.to_be_bytes()).collect();
        assert_eq!(table::check(&bytes), table::SOUND, "a table of the benchmark should be sound");
        let mut record = [0; RECORD_BYTES];
        (0..events).filter(|_| random.once_in(2)).for_each(|bit| record[bit / 8] |= 128 >> (bit % 8));
        let event = offered(&bytes, &record).unwrap_or(0) as u64;
        Input { title: title.to_string(), bytes, nodes: None, copies: None, events, rows, event, record }
    }
}

/// The table that the proved translation writes.
fn translated(text: &[u8]) -> Vec<u8> {
    let mut table = vec![0; TABLE_LIMIT];
    let length = (PROVED.translate)(text, &mut table);
    table.truncate(length as usize);
    table
}

pub fn events_of(table: &[u8]) -> usize {
    usize::from(u16::from_be_bytes([table[0], table[1]]))
}

pub fn rows_of(table: &[u8]) -> usize {
    usize::from(u16::from_be_bytes([table[2], table[3]]))
}

// ---------------------------------------------------------------------------
// Records
// ---------------------------------------------------------------------------

/// The lowest event that may be taken.
fn offered(table: &[u8], record: &Record) -> Option<usize> {
    let mut out = [0; RECORD_BYTES];
    assert_eq!(table::offer(table, record, &mut out), table::OFFERED);
    (0..8 * RECORD_BYTES).find(|event| out[event / 8] << (event % 8) & 128 != 0)
}

/// The record after half as many steps as there are events, each with the lowest
/// event that may be taken; some event may still be taken then.
fn halfway(table: &[u8], events: usize) -> Record {
    let mut record = [0; RECORD_BYTES];
    for _ in 0..events / 2 {
        let mut next = record;
        let event = offered(table, &record).expect("the run goes on");
        table::step(table, &mut next, event as u64);
        if offered(table, &next).is_none() {
            break;
        }
        record = next;
    }
    record
}

// ---------------------------------------------------------------------------
// Made tables
// ---------------------------------------------------------------------------

/// The kinds of a made table's rows.
#[derive(Clone, Copy)]
pub enum Kinds {
    Random,
    /// 0, 1, 2 and 3 in turn.
    InTurn,
    /// 64 rows of one kind, each of which names the one before it.
    Chains,
}

/// Every fourth event or so is a reset.
fn event_word(event: usize, rows: usize, random: &mut Random) -> u32 {
    let count = if event > 0 && random.once_in(4) { random.within(1, event) } else { 0 };
    let first = if count > 0 { event - count } else { 0 };
    (random.below(rows) << 18 | first << 9 | count) as u32
}

fn row_word(kinds: Kinds, row: usize, events: usize, random: &mut Random) -> u32 {
    let kind = match kinds {
        _ if row == 0 => 0,
        Kinds::Random => random.below(4),
        Kinds::InTurn => row % 4,
        Kinds::Chains => row / 64 % 4,
    };
    let left = match kinds {
        _ if kind == 0 => random.below(events),
        Kinds::Chains => row - 1,
        _ => random.below(row),
    };
    let right = if kind < 2 { 0 } else { random.below(row) };
    (kind << 30 | left << 15 | right) as u32
}
