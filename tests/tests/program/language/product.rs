//! The page against the product: the programs `listing` and `play`, the exports
//! of the harness and the C calls.

use super::alone::{examples, grammar};
use super::answers::Answers;
use super::example::Example;
use super::held::difference;
use super::page::page;
use crate::running::{printed, program};
use reference::kit::Lent;
use reference::listing::Values;
use reference::{proved, Refusal, WORD_LIMIT};
use std::ffi::OsString;

struct Product {
    listing: OsString,
    play: OsString,
}

impl Product {
    fn new() -> Product {
        Product { listing: program("ADL_LISTING"), play: program("ADL_PLAY") }
    }
}

/// A result, or the refusal with its number and place, as `proved` packs them.
fn unpacked(number: u64) -> Result<usize, Refusal> {
    match u8::try_from(number >> 32).expect("a number of a refusal") {
        0 => Ok(number as usize),
        refused => Err((refused, number as u32 as usize)),
    }
}

/// What a call wrote to a buffer of this length. Where it refused it wrote
/// nothing.
fn written(room: usize, call: impl Fn(&mut [u8]) -> u64) -> Result<Vec<u8>, Refusal> {
    let mut lent = Lent::buffer(room, 1);
    let answer = unpacked(call(lent.bytes_mut()));
    let bytes = answer.map(|length| lent.bytes()[..length].to_vec());
    assert_eq!(lent.difference(bytes.as_deref().unwrap_or_default()), None);
    bytes
}

impl Answers for Product {
    fn listing(&self, text: &[u8]) -> Vec<u8> {
        printed(&self.listing, &[text]).output
    }

    fn played(&self, input: &[u8]) -> Vec<u8> {
        printed(&self.play, &[input]).output
    }

    fn print(&self, text: &[u8], room: usize) -> Result<Vec<u8>, Refusal> {
        written(room, |out| proved::print(text, out))
    }

    fn translate(&self, text: &[u8], room: usize) -> Result<Vec<u8>, Refusal> {
        written(room, |out| proved::translate(text, out))
    }

    fn name(&self, text: &[u8], event: u64) -> Vec<u8> {
        written(WORD_LIMIT, |out| proved::name(text, event, out)).expect("no refusal is told")
    }

    fn values(&self, text: &[u8], event: u64) -> Result<Values, Refusal> {
        let packed = unpacked(proved::values(text, event))?;
        let values = [packed >> 12 & 63, packed >> 6 & 63, packed & 63];
        Ok(Values { reset: packed >> 24 == 1, list: values[..packed >> 18 & 63].to_vec() })
    }

    fn event(&self, text: &[u8], event: u64, room: usize) -> Result<usize, Refusal> {
        written(room, |out| proved::eventb(text, event, out)).map(|lines| lines.len())
    }

    fn check(&self, table: &[u8]) -> u8 {
        proved::check(table)
    }

    fn step(&self, table: &[u8], record: &mut [u8], event: u64) -> u8 {
        proved::step(table, record, event)
    }

    fn offer(&self, table: &[u8], record: &[u8], out: &mut [u8]) -> u8 {
        proved::offer(table, record, out)
    }

    fn finished(&self, table: &[u8], record: &[u8]) -> u8 {
        proved::finished(table, record)
    }
}

#[test]
fn the_product_answers_what_the_page_states() {
    let (page, product) = (page(), Product::new());
    let examples = examples(&page).unwrap();
    for (block, example) in &examples {
        if let Some(difference) = difference(example, &product) {
            panic!("docs/LANGUAGE.md, the block in line {}: {difference}", block.at);
        }
    }
    assert!(examples.len() >= 50, "only {} examples", examples.len());
}

/// A text of the page is turned away with 5 or 6, or its grammar derives it.
#[test]
fn the_product_reads_by_the_grammar_of_the_page() {
    let page = page();
    let grammar = grammar(&page);
    // The programs are not asked here, but without them nothing may pass.
    Product::new();
    for (block, example) in examples(&page).unwrap() {
        let Example::Drawing(drawing) = example else { continue };
        let answer = unpacked(proved::read(&drawing.text));
        let (Ok(_) | Err((5 | 7..=11, _))) = answer else { continue };
        let derives = grammar.derives(std::str::from_utf8(&drawing.text).expect("no byte is foreign"));
        assert_eq!(derives, !matches!(answer, Err((5, _))), "docs/LANGUAGE.md, the block in line {}", block.at);
    }
}
