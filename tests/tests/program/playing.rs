//! The program `play` against the reference, and against what docs/COURSE.md
//! shows of it.

use crate::alone::{course, runs_in, Run, ROOT};
use crate::running::{assert_prints, program, start};
use reference::drawings::{accepted_text, Size};
use reference::generate::{damaged, many_events, pad_between, random_bytes, Random, T, U};
use reference::kit::number_from;
use reference::meaning::{Book, Diagram};
use reference::player::{label, played, LINE_LIMIT};
use reference::remarks::after_each_token;
use reference::TEXT_LIMIT;
use std::ffi::OsString;
use std::fs;
use std::io::{BufRead, BufReader, Write};
use std::process::Stdio;

/// How many random drawings are played.
const CASES: usize = 60;
const PROGRAM: &str = "ADL_PLAY";

fn assert_played(program: &OsString, input: &[u8]) {
    assert_prints(program, &[input], &played(input));
}

// ---------------------------------------------------------------------------
// What the course shows
// ---------------------------------------------------------------------------

/// Each run of the course, those of its answers too.
#[test]
fn the_course_shows_what_is_printed() {
    let program = program(PROGRAM);
    for Run { file, shown } in runs_in(&course(), "play") {
        let input = fs::read(format!("{ROOT}/{file}")).unwrap();
        assert_prints(&program, &[&input], shown.as_bytes());
    }
}

// ---------------------------------------------------------------------------
// Inputs
// ---------------------------------------------------------------------------

#[test]
fn inputs_worked_through() {
    let program = program(PROGRAM);
    let run = |text: &str, events: &str| format!("{text}\n\n{events}").into_bytes();
    let double = "take: done\nbits [0 take]\nnext [1 fill] [2 send] [3 drop]\n";
    let begin = "events 5 copies 8\nbits\nnext [0 take]\n";
    assert_prints(&program, &[&run(T, "take")], format!("{begin}{double}not finished\n").as_bytes());
    assert_prints(&program, &[&run(T, "")], format!("{begin}not finished\n").as_bytes());
    let rounds = "events 4 copies 6\nbits\nnext [0 a] [3 c]\na: done\nbits [0 a]\nnext [1 b]\n1: done\nbits [0 a] [1 b]\n\
                  next [2 reset r] [3 c]\nreset r: done\nbits [2 reset r]\nnext [0 a] [3 c]\n3: done\nbits [2 reset r] [3 c]\nnext\nfinished\n";
    assert_prints(&program, &[&run(U, "a\n1\nreset r\n3\n")], rounds.as_bytes());
    let straight_on = "events 4 copies 6\nbits\nnext [0 a] [3 c]\na: done\nbits [0 a]\nnext [1 b]\nb: done\nbits [0 a] [1 b]\n\
                       next [2 reset r] [3 c]\nc: done\nbits [0 a] [1 b] [3 c]\nnext\nfinished\n";
    assert_prints(&program, &[&run(U, "a\nb\nc\n")], straight_on.as_bytes());
    assert_prints(&program, &[b""], b"refused 5 0\n");
    assert_prints(&program, &[b"\n\n0\n"], b"refused 5 1\n");
}

/// Lines that say no event, empty ones, long ones, and inputs without events.
#[test]
fn lines_of_all_sorts() {
    let program = program(PROGRAM);
    let long = "x".repeat(LINE_LIMIT);
    let lines = [
        "", "take ", " take", "Take", "00", "+0", "-1", "0 take", "take\r", "reset trip", "5", "512", "18446744073709551616", &long,
        "\0", "\u{ff}",
    ];
    for (at, line) in lines.iter().enumerate() {
        let more = &lines[at..];
        assert_played(&program, format!("{T}\n\n{line}").as_bytes());
        assert_played(&program, format!("{T}\n\n{line}\ntake\n\n\n{}\nfree", more.join("\n")).as_bytes());
    }
    for length in [LINE_LIMIT - 1, LINE_LIMIT, LINE_LIMIT + 1, 100_000] {
        assert_played(&program, format!("{T}\n\n{}\ntake\n", "1".repeat(length)).as_bytes());
    }
    for text in [T.to_string(), format!("{T}\n"), format!("\n{T}\n \n\n0\n"), format!("{T}\n0\n"), T.replace(')', ")\n")] {
        assert_played(&program, text.as_bytes());
        assert_played(&program, format!("{text}\n\n0\n").as_bytes());
    }
}

/// An empty line ends the drawing, and no remark goes on past it. Among the events
/// there are none: a # is a part of its line.
#[test]
fn remarks() {
    let program = program(PROGRAM);
    let drawings = [after_each_token(T, "# take"), format!("# a note\n{T} # a note"), format!("{T}#\n#")];
    for text in drawings.iter().map(String::as_str).chain(["#", "# \t"]) {
        assert_played(&program, text.as_bytes());
        assert_played(&program, format!("{text}\n\ntake\n2\n").as_bytes());
        assert_played(&program, format!("{text}\n\n# a note\n0#\ntake # a note\n#\n\nfree\n").as_bytes());
    }
}

#[test]
fn texts_at_the_limit() {
    let program = program(PROGRAM);
    for length in [TEXT_LIMIT - 2, TEXT_LIMIT - 1, TEXT_LIMIT, TEXT_LIMIT + 1, 200_000] {
        let text = without_empty_lines(pad_between(many_events(16).as_bytes(), length));
        let events: String = (0..6).map(|event| format!("{event}\n")).collect();
        assert_played(&program, &[&text, "\n\n".as_bytes(), events.as_bytes()].concat());
    }
}

#[test]
fn random_drawings_and_events() {
    let program = program(PROGRAM);
    for seed in (number_from("ADL_SEED", 1)..).take(CASES) {
        let random = &mut Random::new(seed);
        let size = *random.pick(&[Size::Small(10), Size::Middle, Size::Deep, Size::Full]);
        let text = without_empty_lines(accepted_text(size, random));
        let events = random_lines(&text, random);
        assert_played(&program, &[&text, "\n\n".as_bytes(), &events].concat());
        assert_played(&program, &[&damaged(text, random), "\n\n".as_bytes(), &events].concat());
        assert_played(&program, &random_bytes(random));
    }
}

/// A line end may be a blank of the drawing or end a remark, two of them would end
/// the drawing: the second is made another blank.
fn without_empty_lines(mut text: Vec<u8>) -> Vec<u8> {
    for at in 1..text.len() {
        if text[at - 1] == b'\n' && text[at] == b'\n' {
            text[at] = b' ';
        }
    }
    text
}

/// Mostly what may come next, by its number or its label.
fn random_lines(text: &[u8], random: &mut Random) -> Vec<u8> {
    let diagram = Diagram::of(text).expect("the drawing is accepted");
    let mut book = Book::new(&diagram);
    let mut lines = Vec::new();
    for _ in 0..random.within(1, 30) {
        let next = book.next();
        let event = match random.below(4) {
            0 => random.below(diagram.events.len() + 2),
            _ if next.is_empty() => random.below(diagram.events.len()),
            _ => *random.pick(&next),
        };
        book.step(event as u64);
        lines.extend_from_slice(line_for(&diagram, event, random).as_bytes());
        lines.push(b'\n');
    }
    lines
}

fn line_for(diagram: &Diagram, event: usize, random: &mut Random) -> String {
    match diagram.events.get(event) {
        Some(known) if random.once_in(2) => label(known),
        Some(known) if random.once_in(8) => format!("{} 0", label(known)),
        _ => event.to_string(),
    }
}

/// A class types an event and sees its answer before the next one.
#[test]
fn a_line_is_answered_when_it_is_there() {
    let program = program(PROGRAM);
    let mut child = start(&program, Stdio::piped());
    let mut input = child.stdin.take().expect("standard input is a pipe");
    let mut output = BufReader::new(child.stdout.take().expect("standard output is a pipe"));
    let mut given = format!("{T}\n\n");
    input.write_all(given.as_bytes()).unwrap();
    let mut seen = lines_from(&mut output, 3);
    for said in ["take", "3", "free", "free"] {
        given += &format!("{said}\n");
        input.write_all(format!("{said}\n").as_bytes()).unwrap();
        seen += &lines_from(&mut output, 3);
    }
    drop(input);
    seen += &lines_from(&mut output, 1);
    assert_eq!(seen.as_bytes(), played(given.as_bytes()));
    assert!(child.wait().unwrap().success());
}

fn lines_from(output: &mut impl BufRead, count: usize) -> String {
    let mut lines = String::new();
    for _ in 0..count {
        output.read_line(&mut lines).expect("the program goes on");
    }
    lines
}
