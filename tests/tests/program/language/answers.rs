//! Who answers what the page asks: the reference here, the product in `product`.

use reference::listing::{listing, name, values, Values};
use reference::plain_eventb::{plain_event, RIGHT};
use reference::player::played;
use reference::{eventb, plain, print, table, Refusal};

pub trait Answers {
    /// What the program `listing` prints.
    fn listing(&self, text: &[u8]) -> Vec<u8>;
    /// What the program `play` prints.
    fn played(&self, input: &[u8]) -> Vec<u8>;
    fn print(&self, text: &[u8], room: usize) -> Result<Vec<u8>, Refusal>;
    fn translate(&self, text: &[u8], room: usize) -> Result<Vec<u8>, Refusal>;
    fn name(&self, text: &[u8], event: u64) -> Vec<u8>;
    fn values(&self, text: &[u8], event: u64) -> Result<Values, Refusal>;
    /// How many bytes the Event-B text of the event has.
    fn event(&self, text: &[u8], event: u64, room: usize) -> Result<usize, Refusal>;
    fn check(&self, table: &[u8]) -> u8;
    fn step(&self, table: &[u8], record: &mut [u8], event: u64) -> u8;
    fn offer(&self, table: &[u8], record: &[u8], out: &mut [u8]) -> u8;
    fn finished(&self, table: &[u8], record: &[u8]) -> u8;
}

pub struct Reference;

impl Answers for Reference {
    fn listing(&self, text: &[u8]) -> Vec<u8> {
        listing(text)
    }

    fn played(&self, input: &[u8]) -> Vec<u8> {
        played(input)
    }

    fn print(&self, text: &[u8], room: usize) -> Result<Vec<u8>, Refusal> {
        print(text, room)
    }

    fn translate(&self, text: &[u8], room: usize) -> Result<Vec<u8>, Refusal> {
        let mut out = vec![0; room];
        let length = plain::translate(text, &mut out)?;
        out.truncate(length);
        Ok(out)
    }

    fn name(&self, text: &[u8], event: u64) -> Vec<u8> {
        text[name(text, event)].to_vec()
    }

    fn values(&self, text: &[u8], event: u64) -> Result<Values, Refusal> {
        values(text, event)
    }

    fn event(&self, text: &[u8], event: u64, room: usize) -> Result<usize, Refusal> {
        eventb::asked(&eventb::drawing_of(text), event, room)?;
        plain_event(RIGHT, text, event).map(|lines| lines.len())
    }

    fn check(&self, table: &[u8]) -> u8 {
        table::check(table)
    }

    fn step(&self, table: &[u8], record: &mut [u8], event: u64) -> u8 {
        table::step(table, record, event)
    }

    fn offer(&self, table: &[u8], record: &[u8], out: &mut [u8]) -> u8 {
        table::offer(table, record, out)
    }

    fn finished(&self, table: &[u8], record: &[u8]) -> u8 {
        table::finished(table, record)
    }
}
