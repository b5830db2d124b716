//! The program `eventb` against the reference: the machine that it prints is read
//! back, held against the drawing and played beside the book; a text that is
//! turned away gives one line.

use crate::alone::{modellers, runs_in, Run, ROOT};
use crate::running::{assert_printed, finish, printed, program, start, Printed};
use reference::drawings::{accepted_text, machine_text, Machine as Plan, Size};
use reference::eventb::compare::records_difference;
use reference::eventb::machine::Machine;
use reference::eventb::text::{read_machine, MachineText};
use reference::eventb::{drawing_of, machine_fault};
use reference::generate::{
    damaged, every_constructor, many_events, nested_flows, pad_between, random_bytes, random_text, root, Random, T, U,
};
use reference::kit::number_from;
use reference::meaning::Diagram;
use reference::remarks::{after_each_token, padded_by_a_remark};
use reference::{read, worked, TEXT_LIMIT};
use std::ffi::OsString;
use std::fs::{self, File};
use std::process::Stdio;

/// How many seeds are played, each with several texts.
const CASES: usize = 60;
/// At how many records the guards of a machine are asked.
const RECORDS: usize = 500;
const PROGRAM: &str = "ADL_EVENTB";

// ---------------------------------------------------------------------------
// One text
// ---------------------------------------------------------------------------

/// Whether the text has a machine; what is printed is right in either case.
fn assert_right(printed: Printed, text: &[u8]) -> bool {
    let shown = || format!("input: b\"{}\"", text.escape_ascii());
    match drawing_of(text) {
        Err((number, place)) => {
            assert_printed(printed, format!("refused {number} {place}\n").as_bytes(), text);
            false
        }
        Ok(diagram) => {
            assert!(printed.status.success(), "{}, {}", printed.status, shown());
            assert_eq!(fault(&diagram, text, &printed.output), None, "{}", shown());
            true
        }
    }
}

fn assert_played(program: &OsString, text: &[u8]) -> bool {
    assert_right(printed(program, &[text]), text)
}

/// What is wrong with a machine that was printed.
fn fault(diagram: &Diagram, text: &[u8], output: &[u8]) -> Option<String> {
    let given = match read_machine(output) {
        Ok(given) => given,
        Err(fault) => return Some(fault),
    };
    let root = read(text).expect("the text is accepted").nodes.remove(0).name;
    machine_fault(diagram, &root, &given)
        .or_else(|| match Machine::new(&given.variables, &given.events) {
            Ok(mut machine) => records_difference(&mut machine, diagram, RECORDS),
            Err(fault) => Some(fault),
        })
        .or_else(|| call_difference(text, output, &given))
}

/// Each event stands in the machine just as the call writes it.
#[cfg(adl_archive)]
fn call_difference(text: &[u8], output: &[u8], given: &MachineText) -> Option<String> {
    let mut out = vec![0; reference::eventb::EVENTB_LIMIT];
    given.places.iter().enumerate().find_map(|(event, place)| {
        let length = reference::proved::eventb(text, event as u64, &mut out);
        let written = out.get(..length as usize);
        (written != Some(&output[place.clone()])).then(|| format!("the call writes event {event} in another way"))
    })
}

/// Without the library there is no call to ask.
#[cfg(not(adl_archive))]
fn call_difference(_: &[u8], _: &[u8], _: &MachineText) -> Option<String> {
    None
}

// ---------------------------------------------------------------------------
// The texts
// ---------------------------------------------------------------------------

#[test]
fn drawings_worked_through() {
    let program = program(PROGRAM);
    let nested = root("loop(flow(o,1)(loop(flow(i,1)(leaf(a)(1)))(0)leaf(b)(1)))(0)leaf(c)(1)");
    let or = root("or(flow(p,1)(leaf(a)(0)leaf(b)(1))leaf(c))(0)leaf(d)(1)");
    let xor = root("xor(flow(p,1)(loop(flow(r,1)(leaf(a)(1)))(0)leaf(b)(1))leaf(c))(1)");
    for text in [T, U, &nested, &or, &xor, &nested_flows(11), &after_each_token(T, "# a note")] {
        assert!(assert_played(&program, text.as_bytes()), "{text} has no machine");
    }
    for plan in [Plan::Exactly(32), Plan::Deep(32), Plan::Nested(32), Plan::UpTo(1)] {
        let text = machine_text(plan, &mut Random::new(1));
        assert!(assert_played(&program, &text), "b\"{}\" has no machine", text.escape_ascii());
    }
}

#[test]
fn texts_turned_away() {
    let program = program(PROGRAM);
    let size_1 = root("all(v:1)(leaf(a))(0)leaf(b)(1)");
    let outside = [every_constructor(), many_events(16), size_1].map(String::into_bytes);
    let many = machine_text(Plan::Exactly(33), &mut Random::new(1));
    for text in outside.iter().chain([&many]) {
        assert_eq!(drawing_of(text).err(), Some((16, 0)));
        assert!(!assert_played(&program, text));
    }
    for (text, _) in worked::listings() {
        assert_played(&program, &text);
    }
}

#[test]
fn random_drawings_and_bytes() {
    let program = program(PROGRAM);
    let mut machines = 0;
    for seed in (number_from("ADL_SEED", 1)..).take(CASES) {
        let random = &mut Random::new(seed);
        let plan = *random.pick(&[Plan::UpTo(10), Plan::UpTo(32), Plan::Exactly(32), Plan::Deep(32), Plan::Nested(32)]);
        let text = machine_text(plan, random);
        machines += usize::from(assert_played(&program, &text));
        assert_played(&program, &damaged(text, random));
        assert_played(&program, &accepted_text(Size::Small(12), random));
        assert_played(&program, &random_text(seed));
        assert_played(&program, &random_bytes(random));
    }
    assert_eq!(machines, CASES);
}

/// What docs/MODELLERS.md shows is what is printed, byte by byte; that it is
/// right is seen by reading it back, as everywhere.
#[test]
fn the_page_shows_what_is_printed() {
    let program = program(PROGRAM);
    let (mut machines, page) = (0, modellers());
    for Run { file, shown } in runs_in(&page, "eventb") {
        let text = fs::read(format!("{ROOT}/{file}")).unwrap();
        machines += usize::from(assert_played(&program, &text));
        assert_printed(printed(&program, &[&text]), shown.as_bytes(), &text);
    }
    assert_eq!(machines, 2, "docs/MODELLERS.md has two machines");
}

/// The drawings of the repository, and those of the course, which end at an
/// empty line.
#[test]
fn drawings_shipped() {
    let program = program(PROGRAM);
    let (mut machines, mut outside) = (0, 0);
    for directory in ["drawings", "course"] {
        for entry in fs::read_dir(format!("{ROOT}/{directory}")).unwrap() {
            let path = entry.unwrap().path();
            if path.extension().is_some_and(|extension| extension == "adl" || extension == "txt") {
                let input = fs::read(&path).unwrap();
                let end = input.windows(2).position(|pair| pair == b"\n\n").map_or(input.len(), |at| at + 1);
                machines += usize::from(assert_played(&program, &input[..end]));
                outside += usize::from(drawing_of(&input[..end]).err() == Some((16, 0)));
            }
        }
    }
    assert!(machines >= 8 && outside >= 2, "{machines} machines, {outside} drawings outside the profile");
}

// ---------------------------------------------------------------------------
// Ways to give a text
// ---------------------------------------------------------------------------

/// What is too long is turned away, not cut.
#[test]
fn blanks_and_lengths() {
    let program = program(PROGRAM);
    assert!(assert_played(&program, format!("\n\n  {}  \n", T.replace(')', " )\n")).as_bytes()));
    for length in [TEXT_LIMIT - 1, TEXT_LIMIT, TEXT_LIMIT + 1, 200_000] {
        let mut blank_end = T.as_bytes().to_vec();
        blank_end.resize(length, b'\n');
        assert_eq!(assert_played(&program, &blank_end), length <= TEXT_LIMIT);
        assert_eq!(assert_played(&program, &pad_between(U.as_bytes(), length)), length <= TEXT_LIMIT);
        assert_eq!(assert_played(&program, &padded_by_a_remark(U.as_bytes(), length, false)), length <= TEXT_LIMIT);
        assert!(!assert_played(&program, &vec![b' '; length]));
    }
}

#[test]
fn texts_in_pieces_and_from_a_file() {
    let program = program(PROGRAM);
    let nested = machine_text(Plan::Nested(32), &mut Random::new(2));
    for (text, length) in [(T.as_bytes(), 1), (U.as_bytes(), 7), (&nested, 500)] {
        let pieces: Vec<&[u8]> = text.chunks(length).collect();
        assert!(assert_right(printed(&program, &pieces), text));
    }
    for length in [TEXT_LIMIT, TEXT_LIMIT + 1] {
        let text = pad_between(T.as_bytes(), length);
        let pieces: Vec<&[u8]> = text.chunks(TEXT_LIMIT - 1).collect();
        assert_eq!(assert_right(printed(&program, &pieces), &text), length == TEXT_LIMIT);
    }
    let path = format!("{}/eventb_program.txt", env!("CARGO_TARGET_TMPDIR"));
    for text in [b"".to_vec(), T.as_bytes().to_vec(), nested, vec![b' '; 200_000]] {
        fs::write(&path, &text).expect("the file can be written");
        let file = File::open(&path).expect("the file is there");
        assert_right(finish(start(&program, Stdio::from(file))), &text);
    }
}
