//! The program `translate` against the reference: its table is played beside the
//! book, and a text that is turned away gives no byte of a table.

use crate::running::{printed, program};
use reference::drawings::{accepted_text, Size};
use reference::generate::{damaged, edge_texts, many_copies, pad_between, random_bytes, Random, T, U};
use reference::kit::number_from;
use reference::meaning::{Book, Diagram};
use reference::remarks::{after_each_token, remark_texts};
use reference::table::{check, finished, offer, step, SOUND};
use reference::{read, TEXT_LIMIT};
use std::ffi::OsString;

/// How many random drawings are translated.
const CASES: usize = 60;
/// How many events are tried on each table.
const EVENTS: usize = 60;
const PROGRAM: &str = "ADL_TRANSLATE";

/// The table of a text, or nothing and the refusal told on standard error.
fn table_of(program: &OsString, text: &[u8]) -> Vec<u8> {
    let printed = printed(program, &[text]);
    assert!(printed.status.success());
    let told = match read(text) {
        Ok(_) => String::new(),
        Err((number, place)) => format!("refused {number} {place}\n"),
    };
    assert_eq!(String::from_utf8_lossy(&printed.errors), told, "b\"{}\"", text.escape_ascii());
    assert_eq!(printed.output.is_empty(), read(text).is_err(), "b\"{}\"", text.escape_ascii());
    printed.output
}

/// Plays events on the table of a drawing, beside its book.
fn assert_played(program: &OsString, text: &[u8], random: &mut Random) {
    let table = table_of(program, text);
    let diagram = Diagram::of(text).expect("the drawing is accepted");
    assert_eq!(check(&table), SOUND);
    let (mut book, mut record) = (Book::new(&diagram), [0; 64]);
    for _ in 0..EVENTS {
        let next = book.next();
        assert_eq!(offered(&table, &record), next);
        let event = match next.is_empty() || random.once_in(3) {
            true => random.below(diagram.events.len() + 1) as u64,
            false => *random.pick(&next) as u64,
        };
        assert_eq!(step(&table, &mut record, event), book.step(event));
        assert_eq!(record, book.record());
        assert_eq!(finished(&table, &record), book.finished());
    }
}

fn offered(table: &[u8], record: &[u8]) -> Vec<usize> {
    let mut bits = [0; 64];
    assert_eq!(offer(table, record, &mut bits), SOUND);
    (0..512).filter(|event| bits[event / 8] & 128 >> (event % 8) != 0).collect()
}

#[test]
fn tables_play_their_drawings() {
    let program = program(PROGRAM);
    let noted = after_each_token(T, "# a note");
    for text in [T.as_bytes(), U.as_bytes(), noted.as_bytes(), &pad_between(many_copies(8).as_bytes(), TEXT_LIMIT)] {
        assert_played(&program, text, &mut Random::new(1));
    }
    for seed in (number_from("ADL_SEED", 1)..).take(CASES) {
        let random = &mut Random::new(seed);
        let size = *random.pick(&[Size::Small(10), Size::Middle, Size::Deep, Size::Full]);
        let text = accepted_text(size, random);
        assert_played(&program, &text, random);
    }
}

#[test]
fn texts_turned_away_give_no_table() {
    let program = program(PROGRAM);
    for text in edge_texts().iter().step_by(50).chain(remark_texts().iter().step_by(37)) {
        table_of(&program, text);
    }
    for seed in (number_from("ADL_SEED", 1)..).take(CASES) {
        let random = &mut Random::new(seed);
        let text = accepted_text(Size::Middle, random);
        table_of(&program, &damaged(text, random));
        table_of(&program, &random_bytes(random));
    }
    for length in [TEXT_LIMIT, TEXT_LIMIT + 1, 200_000] {
        table_of(&program, &pad_between(T.as_bytes(), length));
    }
}
