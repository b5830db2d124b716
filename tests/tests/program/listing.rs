//! The listing program against the reference.

use crate::running::{assert_prints, assert_printed, finish, program, start};
use reference::drawings::{accepted_text, Size};
use reference::generate::{damaged, many_events, pad_between, random_bytes, random_text, Random, T, U};
use reference::kit::number_from;
use reference::listing::listing;
use reference::remarks::{padded_by_a_remark, remark_texts, remarks_in};
use reference::{read, worked, TEXT_LIMIT};
use std::ffi::OsString;
use std::fs::{self, File};
use std::process::Stdio;

/// How many seeds are played, each with four texts.
const CASES: usize = 60;
const PROGRAM: &str = "ADL_LISTING";

// ---------------------------------------------------------------------------
// The texts
// ---------------------------------------------------------------------------

#[test]
fn texts_worked_through() {
    let program = program(PROGRAM);
    for (text, wanted) in worked::listings() {
        assert_prints(&program, &[&text], wanted.as_bytes());
    }
}

/// Blanks, and lengths at the limit and past it: what is too long is turned
/// away, not cut.
#[test]
fn blanks_and_lengths() {
    let program = program(PROGRAM);
    assert_played(&program, format!("\n\n  {}  \n", T.replace(')', " )\n")).as_bytes());
    for length in [TEXT_LIMIT - 1, TEXT_LIMIT, TEXT_LIMIT + 1, 4 * TEXT_LIMIT, 200_000] {
        let mut blank_end = T.as_bytes().to_vec();
        blank_end.resize(length, b'\n');
        assert_played(&program, &blank_end);
        assert_played(&program, &pad_between(many_events(16).as_bytes(), length));
        assert_played(&program, &padded_by_a_remark(T.as_bytes(), length, true));
        assert_played(&program, &padded_by_a_remark(T.as_bytes(), length, false));
        assert_played(&program, &vec![b' '; length]);
        assert_played(&program, &vec![0xFF; length]);
    }
}

/// Some of them, from all over the list.
#[test]
fn remarks() {
    let program = program(PROGRAM);
    remark_texts().iter().step_by(23).for_each(|text| assert_played(&program, text));
}

#[test]
fn random_drawings_and_bytes() {
    let program = program(PROGRAM);
    for seed in (number_from("ADL_SEED", 1)..).take(CASES) {
        let random = &mut Random::new(seed);
        let size = *random.pick(&[Size::Small(10), Size::Middle, Size::Deep, Size::Full]);
        let text = accepted_text(size, random);
        assert_played(&program, &text);
        assert_played(&program, &damaged(text, random));
        assert_played(&program, &random_text(seed));
        assert_played(&program, &random_bytes(random));
    }
}

/// The drawings that the repository ships: what each shows is said in a remark,
/// and it is accepted and listed as the reference does.
#[test]
fn drawings_shipped() {
    let program = program(PROGRAM);
    let mut played = 0;
    for entry in fs::read_dir(concat!(env!("CARGO_MANIFEST_DIR"), "/../drawings")).unwrap() {
        let path = entry.unwrap().path();
        if path.extension().is_some_and(|extension| extension == "adl") {
            let text = fs::read(&path).unwrap();
            assert!(!remarks_in(&text).is_empty(), "{} has no remark", path.display());
            assert!(read(&text).is_ok(), "{} is turned away", path.display());
            assert_played(&program, &text);
            played += 1;
        }
    }
    assert!(played >= 5, "only {played} drawings");
}

// ---------------------------------------------------------------------------
// Ways to give a text
// ---------------------------------------------------------------------------

/// A pipe gives at most what was written so far: all pieces are to be joined.
#[test]
fn texts_in_pieces() {
    let program = program(PROGRAM);
    assert_played_in_pieces(&program, T.as_bytes(), 1);
    assert_played_in_pieces(&program, U.as_bytes(), 7);
    assert_played_in_pieces(&program, T.as_bytes(), T.len() - 1);
    let long = many_events(16);
    for length in [TEXT_LIMIT, TEXT_LIMIT + 1] {
        let text = pad_between(long.as_bytes(), length);
        assert_played_in_pieces(&program, &text, 500);
        assert_played_in_pieces(&program, &text, 4096);
        // The last byte comes alone, then the one that is too much.
        assert_played_in_pieces(&program, &text, TEXT_LIMIT - 1);
        assert_played_in_pieces(&program, &text, TEXT_LIMIT);
    }
    assert_played_in_pieces(&program, &pad_between(long.as_bytes(), 200_000), 20_000);
}

#[test]
fn texts_from_a_file() {
    let program = program(PROGRAM);
    let path = format!("{}/listing_program.txt", env!("CARGO_TARGET_TMPDIR"));
    for text in [b"".to_vec(), T.as_bytes().to_vec(), pad_between(U.as_bytes(), TEXT_LIMIT), vec![b' '; 200_000]] {
        fs::write(&path, &text).expect("the file can be written");
        let file = File::open(&path).expect("the file is there");
        let child = start(&program, Stdio::from(file));
        assert_printed(finish(child), &listing(&text), &text);
    }
}

fn assert_played(program: &OsString, text: &[u8]) {
    assert_prints(program, &[text], &listing(text));
}

fn assert_played_in_pieces(program: &OsString, text: &[u8], length: usize) {
    let pieces: Vec<&[u8]> = text.chunks(length).collect();
    assert_prints(program, &pieces, &listing(text));
}
