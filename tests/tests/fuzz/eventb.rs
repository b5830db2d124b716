//! The Event-B text of a drawing's events: the proved call held against the
//! reference, its texts played as a machine beside the book.

use crate::calls::random_run;
use crate::case::Case;
use crate::playing::report;
use reference::drawings::{machine_text, Machine};
use reference::eventb::compare::{held, machine_of, numbers_difference, records_difference, Asked};
use reference::eventb::{drawing_of, EVENTB_LIMIT};
use reference::generate::{edge_texts, nested_flows, pad_between, root, Random, T, U};
use reference::plain::calls::{Calls, PROVED, RUST};
use reference::remarks::after_each_token;
use reference::{proved, TEXT_LIMIT};

/// So many records of a fixed drawing are looked at.
const RECORDS: usize = 3_000;
/// So many long drawings are written.
const LONG_DRAWINGS: u64 = 300;

pub fn difference(case: &Asked, library: &Calls) -> Option<String> {
    held(case, library.eventb).err()
}

// ---------------------------------------------------------------------------
// Fixed drawings
// ---------------------------------------------------------------------------

/// T, U, document 01's slips, and drawings at the limits of a machine.
fn fixed_machines() -> Vec<Vec<u8>> {
    let members =
        |count: usize| (0..count).map(|at| format!("leaf(a_name_of_24_bytes_in_{at:02})")).collect::<String>();
    let group = |keyword: &str| root(&format!("{keyword}({})(0)leaf(last)(1)", members(31)));
    let mut drawings = vec![T.to_string(), U.to_string(), nested_flows(11), nested_loops(), root(&leaf_loops())];
    drawings.extend(["and", "or", "xor"].map(group));
    drawings.extend(slips());
    drawings.extend([T, U].map(|text| after_each_token(text, "# a note")));
    let mut drawings: Vec<Vec<u8>> = drawings.into_iter().map(String::into_bytes).collect();
    drawings.push(pad_between(T.as_bytes(), TEXT_LIMIT));
    for plan in [Machine::Exactly(32), Machine::Deep(32), Machine::Nested(32)] {
        drawings.extend((1..4).map(|seed| machine_text(plan, &mut Random::new(seed))));
    }
    drawings
}

fn slips() -> Vec<String> {
    vec![
        root("xor(flow(p,1)(loop(flow(r,1)(leaf(a)(1)))(0)leaf(b)(1))leaf(c))(1)"),
        root("or(flow(p,1)(leaf(a)(0)leaf(b)(1))leaf(c))(0)leaf(d)(1)"),
        root("leaf(d)(1)or(flow(p,1)(leaf(a)(0)leaf(b)(1))leaf(c))(0)"),
        root("or(leaf(a)leaf(b))(0)leaf(c)(1)"),
        root("loop(flow(o,1)(loop(flow(i,1)(leaf(a)(1)))(0)leaf(b)(1)))(0)leaf(c)(1)"),
        root("leaf(c)(1)loop(flow(r,1)(leaf(a)(0)leaf(b)(1)))(0)"),
        root("or(flow(s,1)(leaf(a)(1)loop(flow(r,1)(leaf(b)(0)leaf(c)(1)))(0))leaf(d))(0)leaf(e)(1)"),
    ]
}

/// Loops over flows in one another down to depth 12.
fn nested_loops() -> String {
    let open: String = (0..5).map(|at| format!("loop(flow(f{at},1)(")).collect();
    let close: String = (0..5).map(|at| format!("))(0)leaf(c{at})(1)")).collect();
    root(&format!("{open}leaf(a)(1){close}"))
}

/// Loops over leaves before, between and after leaves.
fn leaf_loops() -> String {
    (0..4).map(|at| format!("loop(leaf(l{at}))(0)leaf(n{at})({})", u8::from(at == 2))).collect::<String>()
        + "loop(leaf(z))(0)"
}

fn assert_alike(case: Asked, library: &Calls) {
    let case = Case::Machine(case);
    if case.difference(library).is_some() {
        panic!("{}: {}", library.title, report(&case, library));
    }
}

/// Every number below E, ones at and past it, and buffers of all lengths; then
/// all records, or as many as there is time for, and some long runs.
fn assert_machine_alike(text: &[u8], random: &mut Random, library: &Calls) {
    let diagram = drawing_of(text).expect("the drawing has a machine");
    let events = diagram.events.len() as u64;
    let past = [events, events + 1, 32, 33, 512, 1 << 16, 1 << 32, (1 << 32) + events / 2, 1 << 63, u64::MAX];
    for length in [0, EVENTB_LIMIT - 1, EVENTB_LIMIT, EVENTB_LIMIT + 77] {
        let numbers = (0..events).chain(past).collect();
        assert_alike(Asked { text: text.to_vec(), length, numbers, run: random_run(&diagram, random) }, library);
    }
    let made = machine_of(text, library.eventb).expect("the texts are right").expect("the drawing has a machine");
    let (mut machine, diagram) = (made.machine, made.diagram);
    let difference = records_difference(&mut machine, &diagram, RECORDS);
    assert_eq!(difference, None, "{}: b\"{}\"", library.title, text.escape_ascii());
}

#[test]
fn fixed_machines_agree() {
    for (at, text) in fixed_machines().iter().enumerate() {
        assert_machine_alike(text, &mut Random::new(at as u64), &PROVED);
    }
}

/// The plain writer passes the same comparison.
#[test]
fn fixed_machines_of_the_plain_writer_agree() {
    for (at, text) in fixed_machines().iter().enumerate() {
        assert_machine_alike(text, &mut Random::new(at as u64), &RUST);
    }
}

/// Texts of all sorts, most of them turned away.
#[test]
fn edge_texts_agree_on_machines() {
    for text in edge_texts() {
        for (numbers, length) in [(&[0, 31, 32, u64::MAX][..], EVENTB_LIMIT), (&[0, u64::MAX], EVENTB_LIMIT - 1)] {
            let difference = numbers_difference(&text, numbers, length, proved::eventb);
            assert_eq!(difference, None, "b\"{}\"", text.escape_ascii());
        }
    }
}

/// A lent buffer of the limit is always enough: the longest text met is printed,
/// with its drawing.
#[test]
fn the_longest_texts_fit() {
    let plans = [Machine::Nested(32), Machine::Nested(32), Machine::Exactly(32), Machine::Deep(32)];
    let random_text = |seed: u64| machine_text(plans[seed as usize % plans.len()], &mut Random::new(seed));
    let mut longest = (0, Vec::new());
    for text in fixed_machines().into_iter().chain((0..LONG_DRAWINGS).map(random_text)) {
        let made = machine_of(&text, proved::eventb).expect("the texts are right").expect("the drawing has a machine");
        longest = longest.max((made.longest, text));
    }
    let (length, text) = longest;
    println!("the longest Event-B text of an event has {length} bytes, of b\"{}\"", text.escape_ascii());
    assert!(length <= EVENTB_LIMIT, "{length} bytes");
}
