//! All calls of the proved library, of Rust and of plain C under one form, to be
//! held against each other and timed. Numbers are packed as in `proved`.

use super::{c, print, translate, Refusal};
use crate::eventb::compare::Call;
use crate::listing::LISTING_LIMIT;
use crate::table::{bytes_of, words_of, Words};
use crate::{plain_eventb, plain_listing, proved, read, table};

pub struct Calls {
    pub title: &'static str,
    pub read: fn(&[u8]) -> u64,
    pub print: fn(&[u8], &mut [u8]) -> u64,
    pub translate: fn(&[u8], &mut [u8]) -> u64,
    pub list: fn(&[u8], &mut [u8]) -> u64,
    pub name: fn(&[u8], u64, &mut [u8]) -> u64,
    pub values: fn(&[u8], u64) -> u64,
    pub eventb: Call,
    pub update: fn(&[u8], &mut Words, u64) -> u64,
    pub check: fn(&[u8]) -> u8,
    pub step: fn(&[u8], &mut [u8], u64) -> u8,
    pub offer: fn(&[u8], &[u8], &mut [u8]) -> u8,
    pub finished: fn(&[u8], &[u8]) -> u8,
}

pub const PROVED: Calls = Calls {
    title: "proved",
    read: proved::read,
    print: proved::print,
    translate: proved::translate,
    list: proved::list,
    name: proved::name,
    values: proved::values,
    eventb: proved::eventb,
    update: proved::update,
    check: proved::check,
    step: proved::step,
    offer: proved::offer,
    finished: proved::finished,
};

/// Reading and the table calls of the reference; the others in plain Rust, as
/// they write to a lent buffer.
pub const RUST: Calls = Calls {
    title: "Rust",
    read: |text| proved::read_number(&read(text)),
    print: |text, out| written(print(text, out)),
    translate: |text, out| written(translate(text, out)),
    list: |text, out| match out.len() < LISTING_LIMIT {
        true => {
            let mut whole = [0; LISTING_LIMIT];
            let length = plain_listing::list(text, &mut whole);
            copied(&whole[..length], out)
        }
        false => plain_listing::list(text, out) as u64,
    },
    name: |text, event, out| copied(plain_listing::name(text, event), out),
    values: |text, event| proved::values_number(&plain_listing::values(text, event)),
    eventb: plain_eventb::eventb,
    update: |table, words, event| updated(table::step, table, words, event),
    check: table::check,
    step: table::step,
    offer: table::offer,
    finished: table::finished,
};

/// Event-B text is not written in C: there it is that of Rust, so the benchmark
/// times only the proved one and that of Rust.
pub const C: Calls = Calls {
    title: "plain C",
    read: c::read,
    print: c::print,
    translate: c::translate,
    list: c::list,
    name: c::name,
    values: c::values,
    eventb: plain_eventb::eventb,
    update: |table, words, event| updated(c::step, table, words, event),
    check: c::check,
    step: c::step,
    offer: c::offer,
    finished: c::finished,
};

/// How many bytes were written, or the refusal.
fn written(answer: Result<usize, Refusal>) -> u64 {
    answer.map_or_else(proved::refusal_number, |length| length as u64)
}

/// Bytes as a copy in a lent buffer, as far as it goes.
fn copied(bytes: &[u8], out: &mut [u8]) -> u64 {
    let fits = bytes.len().min(out.len());
    out[..fits].copy_from_slice(&bytes[..fits]);
    bytes.len() as u64
}

/// A step on the bytes of a record, as one on its words.
fn updated(step: fn(&[u8], &mut [u8], u64) -> u8, table: &[u8], words: &mut Words, event: u64) -> u64 {
    let mut record = bytes_of(words);
    let number = step(table, &mut record, event);
    *words = words_of(&record);
    u64::from(number) << 32
}
