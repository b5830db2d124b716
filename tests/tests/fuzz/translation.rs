//! A translation held against what the paper says of every table.

use reference::kit::Lent;
use reference::plain::calls::Calls;
use reference::plain::TABLE_LIMIT;
use reference::{proved, table, Refusal, Summary};

const ROWS_FOR_EACH_COPY: usize = 16;

/// The table, none if the text is turned away as it should be; or what is
/// wrong.
pub fn translated(
    library: &Calls,
    text: &Lent,
    summary: &Result<Summary, Refusal>,
    length: usize,
) -> Result<Option<Vec<u8>>, String> {
    let mut buffer = Lent::buffer(length, text.bytes().len());
    let answer = (library.translate)(text.bytes(), buffer.bytes_mut());
    let expected = if length < TABLE_LIMIT { &Err((1, 0)) } else { summary };
    let written = match expected {
        Ok(summary) => table_in(answer, buffer.bytes(), summary, library),
        Err(refusal) => refusal_in(answer, *refusal),
    };
    let table = written.map_err(|difference| format!("translation to {length} bytes: {difference}"))?;
    match buffer.difference(&table) {
        Some(difference) => Err(format!("translation to {length} bytes: {difference}")),
        None => Ok(expected.is_ok().then_some(table)),
    }
}

fn refusal_in(answer: u64, refusal: Refusal) -> Result<Vec<u8>, String> {
    let expected = proved::refusal_number(refusal);
    match answer == expected {
        true => Ok(Vec::new()),
        false => Err(format!("should be {}, is {}", in_words(expected), in_words(answer))),
    }
}

fn table_in(answer: u64, out: &[u8], summary: &Summary, library: &Calls) -> Result<Vec<u8>, String> {
    if !(4..=TABLE_LIMIT as u64).contains(&answer) {
        return Err(format!("should be the length of a table, is {}", in_words(answer)));
    }
    let table = &out[..answer as usize];
    let events = usize::from(u16::from_be_bytes([table[0], table[1]]));
    let rows = usize::from(u16::from_be_bytes([table[2], table[3]]));
    if events != summary.events {
        return Err(format!("E is {events}, the drawing has {} events", summary.events));
    }
    if rows > ROWS_FOR_EACH_COPY * summary.copies {
        return Err(format!("{rows} rows for {} copies", summary.copies));
    }
    match (table::check(table), (library.check)(table)) {
        (table::SOUND, table::SOUND) => Ok(table.to_vec()),
        (reference, library) => Err(format!("of the table check says {library}, the reference {reference}")),
    }
}

/// An answer of the translating C function in plain words.
fn in_words(answer: u64) -> String {
    match answer >> 32 {
        0 => format!("{answer} bytes"),
        number => format!("refusal {number} at {}", answer & 0xFFFF_FFFF),
    }
}
