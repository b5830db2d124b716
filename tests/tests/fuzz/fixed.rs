//! Fixed texts: those of document 01 with the very answers that it gives, card 1
//! of document 02 in force, and ones at the edges and the limits, which random
//! ones hardly come to.

use crate::calls::random_calls;
use crate::case::{Case, RunCase, TextCase};
use crate::make::make;
use crate::playing::{play as play_cases, report};
use crate::texts::{event_difference, list_difference};
use reference::generate::{
    edge_texts, every_constructor, longest_drawing, many_copies, many_events, nested_flows, pad_between, root,
    root_with_leaves, Random, T, U,
};
use reference::kit::Lent;
use reference::listing::{listing, Event, LISTING_LIMIT};
use reference::meaning::{Diagram, FINISHED, NOT_FINISHED, NOT_NOW, TAKEN};
use reference::plain::calls::{Calls, C, PROVED, RUST};
use reference::plain::TABLE_LIMIT;
use reference::remarks::{after_each_token, leaves_with_remarks};
use reference::table::RECORD_BYTES;
use reference::{proved, read, worked, TEXT_LIMIT, WORD_LIMIT};

// ---------------------------------------------------------------------------
// Drawings worked through
// ---------------------------------------------------------------------------

/// Plays the events of a drawing from the blank record on; all but the last
/// must be taken. Tells the last answer, whether the run is finished, and the
/// record.
fn play(text: &str, events: &[u64]) -> (u8, u8, [u8; RECORD_BYTES]) {
    let mut table = vec![0; TABLE_LIMIT];
    let length = proved::translate(text.as_bytes(), &mut table);
    let table = &table[..length as usize];
    let mut record = [0; RECORD_BYTES];
    let (last, before) = events.split_last().expect("there is an event");
    for event in before {
        assert_eq!(proved::step(table, &mut record, *event), TAKEN, "event {event} of {events:?}");
    }
    let answer = proved::step(table, &mut record, *last);
    (answer, proved::finished(table, &record), record)
}

#[test]
fn runs_worked_through() {
    let whole: [(&str, &[u64]); 5] =
        [(T, &[0, 2, 4]), (T, &[0, 1, 1, 3, 4]), (U, &[3]), (U, &[0, 1, 2, 3]), (U, &[0, 1, 3])];
    for (text, events) in whole {
        let (answer, finished, _) = play(text, events);
        assert_eq!((answer, finished), (TAKEN, FINISHED), "{events:?}");
    }
    let turned_away: [(&str, &[u64], u8); 4] = [
        (T, &[0, 2, 3], NOT_FINISHED),
        (T, &[0, 2, 4, 4], FINISHED),
        (T, &[0, 2, 1], NOT_FINISHED),
        (U, &[0, 3], NOT_FINISHED),
    ];
    for (text, events, finished) in turned_away {
        let (answer, finished_given, record) = play(text, events);
        assert_eq!((answer, finished_given), (NOT_NOW, finished), "{events:?}");
        assert_eq!(record, play(text, &events[..events.len() - 1]).2, "{events:?}");
    }
}

#[test]
fn records_worked_through() {
    for (events, byte) in [(&[0, 1][..], 192), (&[0, 1, 2], 32), (&[0, 1, 2, 3], 48)] {
        let mut wanted = [0; RECORD_BYTES];
        wanted[0] = byte;
        assert_eq!(play(U, events).2, wanted, "{events:?}");
    }
}

#[test]
fn sizes_worked_through() {
    let accepted = proved::counts_number;
    let refused = |number: u64, place: usize| number << 32 | place as u64;
    let last_leaf = |text: &str| text.rfind("leaf").expect("there is a leaf");
    for (text, wanted) in [
        (T.to_string(), accepted(8, 8, 5)),
        (U.to_string(), accepted(6, 6, 4)),
        (String::new(), refused(5, 0)),
        (root_with_leaves(255), accepted(256, 256, 255)),
        (root_with_leaves(256), refused(6, last_leaf(&root_with_leaves(256)))),
        (nested_flows(11), accepted(12, 12, 1)),
        (nested_flows(12), refused(6, last_leaf(&nested_flows(12)))),
        (many_events(16), accepted(79, 544, 512)),
        (many_events(17), refused(11, 0)),
        (many_copies(8), accepted(78, 768, 376)),
        (many_copies(9), refused(11, 0)),
    ] {
        assert_eq!(proved::read(text.as_bytes()), wanted, "{text}");
        if wanted >> 32 != 0 {
            assert_eq!(proved::translate(text.as_bytes(), &mut vec![0; TABLE_LIMIT]), wanted, "{text}");
        }
    }
}

#[test]
fn listings_worked_through() {
    for (text, wanted) in worked::listings() {
        let difference = list_difference(&Lent::text(&text), wanted.as_bytes(), LISTING_LIMIT, &PROVED);
        assert_eq!(difference, None, "b\"{}\"", text.escape_ascii());
    }
}

#[test]
fn names_and_values_worked_through() {
    for answer in worked::answers() {
        let event = answer.values.map(|values| Event { name: answer.name, values });
        let text = Lent::text(&answer.text);
        let difference = event_difference(&text, answer.event, &event, WORD_LIMIT, &PROVED);
        assert_eq!(difference, None, "b\"{}\"", answer.text.escape_ascii());
    }
}

// ---------------------------------------------------------------------------
// Edge texts and fixed drawings
// ---------------------------------------------------------------------------

fn assert_alike(case: Case, library: &Calls) {
    if case.difference(library).is_some() {
        panic!("{}: {}", library.title, report(&case, library));
    }
}

/// A text with each buffer empty, short by one, just long enough, and longer.
/// So many nodes and events at most are asked for, and that once.
fn text_cases(text: &[u8], most: u64) -> [Case; 4] {
    let summary = read(text);
    let nodes = summary.as_ref().map_or(vec![0, u64::MAX], |summary| numbers_up_to(summary.nodes.len() as u64, most));
    let events = numbers_up_to(summary.as_ref().map_or(0, |summary| summary.events as u64), most);
    let lengths = |change: fn(usize) -> usize, nodes: Vec<u64>, events: Vec<u64>| {
        Case::Text(TextCase {
            text: text.to_vec(),
            print: change(TEXT_LIMIT),
            translate: change(TABLE_LIMIT),
            list: change(LISTING_LIMIT),
            name: change(WORD_LIMIT),
            nodes,
            events,
        })
    };
    [
        lengths(|_| 0, vec![], vec![0]),
        lengths(|limit| limit - 1, vec![], vec![0]),
        lengths(|limit| limit, nodes, events),
        lengths(|limit| limit + 9, vec![], vec![0]),
    ]
}

/// Numbers below the count, all or so many spread out, and ones past them: near
/// it, at the edges of number types, and some that would be below it if their
/// upper bits were lost.
fn numbers_up_to(count: u64, most: u64) -> Vec<u64> {
    let below = (0..count).step_by(count.div_ceil(most).max(1) as usize);
    let last = count.checked_sub(1);
    let past = [count, count + 1, 512, 1 << 16, 1 << 32, (1 << 32) + count / 2, 1 << 63, u64::MAX];
    below.chain(last).chain(past).collect()
}

#[test]
fn edge_texts_agree() {
    for text in edge_texts() {
        // Some of them differ in blanks alone, and each question reads all of them.
        let most = if text.len() > 1_000 { 12 } else { 512 };
        text_cases(&text, most).into_iter().for_each(|case| assert_alike(case, &PROVED));
    }
}

#[test]
fn fixed_drawings_agree() {
    assert!(listing(long_lines().as_bytes()).len() > TEXT_LIMIT);
    for (at, text) in fixed_drawings().into_iter().enumerate() {
        assert!(read(&text).is_ok(), "fixed drawing {at} is turned away");
        text_cases(&text, 512).into_iter().for_each(|case| assert_alike(case, &PROVED));
        assert_runs_alike(&text, &mut Random::new(at as u64), &PROVED);
    }
}

/// Some lists of calls; those of large drawings are long, and fewer.
fn assert_runs_alike(text: &[u8], random: &mut Random, library: &Calls) {
    let diagram = Diagram::of(text).expect("the drawing is accepted");
    let lists = match diagram.events.len() {
        0..=12 => 16,
        13..=100 => 8,
        _ => 2,
    };
    for _ in 0..lists {
        let calls = random_calls(&diagram, random);
        assert_alike(Case::Run(RunCase { text: text.to_vec(), calls }), library);
    }
}

/// The drawings of document 01 and its slips, and ones at the limits; some of
/// them also with blanks or remarks among their tokens.
fn fixed_drawings() -> Vec<Vec<u8>> {
    let mut drawings: Vec<Vec<u8>> = worked::accepted().into_iter().map(|(text, _)| text).collect();
    drawings.extend([every_constructor(), many_values(), long_lines()].map(String::into_bytes));
    drawings.push(longest_drawing());
    let with_blanks = |text: &Vec<u8>| pad_between(text, (2 * text.len()).min(TEXT_LIMIT));
    let spread: Vec<Vec<u8>> = drawings.iter().map(with_blanks).collect();
    drawings.extend(spread);
    let drawn = [every_constructor(), many_values(), nested_flows(11), many_copies(8)];
    drawings.extend(drawn.map(|text| after_each_token(&text, "# a note").into_bytes()));
    drawings.push(leaves_with_remarks(64).into_bytes());
    drawings.extend(slips().into_iter().chain(large_constructors()).map(String::into_bytes));
    drawings
}

fn slips() -> Vec<String> {
    vec![
        root("xor(flow(p,1)(loop(flow(r,1)(leaf(a)(1)))(0)leaf(b)(1))leaf(c))(1)"),
        root("or(flow(p,1)(leaf(a)(0)leaf(b)(1))leaf(c))(0)leaf(d)(1)"),
        root("leaf(d)(1)or(flow(p,1)(leaf(a)(0)leaf(b)(1))leaf(c))(0)"),
        root("or(leaf(a)leaf(b))(0)leaf(c)(1)"),
        root("loop(flow(o,1)(loop(flow(i,1)(leaf(a)(1)))(0)leaf(b)(1)))(0)leaf(c)(1)"),
        root("leaf(c)(1)loop(flow(r,1)(leaf(a)(0)leaf(b)(1)))(0)"),
        root("or(flow(s,1)(leaf(a)(1)loop(flow(r,1)(leaf(b)(0)leaf(c)(1)))(0))leaf(d))(0)leaf(e)(1)"),
    ]
}

fn large_constructors() -> Vec<String> {
    let members: String = (0..253).map(|at| format!("leaf(m{at})")).collect();
    let group = |keyword| root(&format!("{keyword}({members})(0)leaf(last)(1)"));
    let flow = "flow(f,v,1)(leaf(a)(1)loop(flow(g,v,1)(leaf(b)(1)))(0)and(leaf(c)leaf(d))(0))";
    let replicator = |keyword| root(&format!("{keyword}(v:16)({flow})(0)leaf(last)(1)"));
    ["and", "or", "xor"].map(group).into_iter().chain(["all", "some", "one"].map(replicator)).collect()
}

/// Leaves with three values, two of them of two digits.
fn many_values() -> String {
    root(
        "all(a:16)(flow(f,a,1)(one(b:11)(flow(g,a,b,1)(one(c:2)(leaf(a_name_of_24_bytes_in_al))(1)))(1)))(0)\
         leaf(z)(1)",
    )
}

/// Nearly as many events as there may be, half of them resets, with three
/// values and names of 24 bytes: a listing longer than any text.
fn long_lines() -> String {
    let round = |at| format!("loop(flow(flow_of_24_bytes_in_al{at},p,q,r,1)(leaf(leaf_of_24_bytes_in_al{at})(1)))(0)");
    let loops: String = (10..25).map(round).collect();
    root(&format!(
        "one(p:1)(flow(f,p,1)(one(q:1)(flow(g,p,q,1)(one(r:16)(flow(h,p,q,r,1)({loops}leaf(s)(1)))(1)))(1)))(1)"
    ))
}

// ---------------------------------------------------------------------------
// The baselines of the benchmark
// ---------------------------------------------------------------------------

const BASELINE_CASES: u64 = 5_000;

/// They do the job that they are timed for.
#[test]
fn baselines_agree() {
    for baseline in [RUST, C] {
        // Most edge texts are refused by the reader: some of them will do.
        for text in edge_texts().iter().step_by(3) {
            text_cases(text, 12).into_iter().for_each(|case| assert_alike(case, &baseline));
        }
        for (at, text) in fixed_drawings().iter().enumerate() {
            assert_runs_alike(text, &mut Random::new(at as u64), &baseline);
        }
        let (failing, _) = play_cases(2, BASELINE_CASES, &baseline);
        failing.into_iter().for_each(|number| assert_alike(make(2, number).case, &baseline));
    }
}
