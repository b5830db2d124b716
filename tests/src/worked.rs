//! Texts worked through by hand: what document 01 prints for them, and what
//! the name call and the values call say of some of their events. The
//! reference, the proved library and the listing program are all held to them.

use crate::generate::{many_copies, many_events, nested_flows, pad_between, root, root_with_leaves, T, U};
use crate::listing::Values;
use crate::remarks::{after_each_token, padded_by_a_remark};
use crate::{Refusal, TEXT_LIMIT};
use std::ops::Range;

const T_LISTING: &str = "events 5 copies 8\n0 take\n1 fill\n2 send\n3 drop\n4 free\n";
const U_LISTING: &str = "events 4 copies 6\n0 a\n1 b\n2 reset r\n3 c\n";

/// A loop and a replicator in the copies of a flow, leaves on either side.
const NESTED: &str = "all(v:2)(flow(k,v,1)(loop(flow(m,v,1)(one(w:2)(leaf(l))(1)))(0)leaf(n)(1)))(0)leaf(z)(1)";
const NESTED_LISTING: &str = "events 9 copies 17\n0 l 0 0\n1 l 0 1\n2 reset m 0\n3 n 0\n\
                              4 l 1 0\n5 l 1 1\n6 reset m 1\n7 n 1\n8 z\n";

/// Three replicators, a reset right within each of them and one around all.
const THREE_DEEP: &str = "loop(flow(o,1)(\
                          one(u:2)(flow(p,u,1)(loop(flow(q,u,1)(leaf(a)(1)))(0)\
                          one(v:1)(flow(r,u,v,1)(loop(flow(s,u,v,1)(leaf(b)(1)))(0)\
                          one(w:2)(flow(t,u,v,w,1)(loop(flow(x,u,v,w,1)(leaf(c)(1)))(0)leaf(d)(1)))(1)))(1)))(1)\
                          ))(0)leaf(e)(1)";
const THREE_DEEP_LISTING: &str = "events 22 copies 45\n\
                                  0 a 0\n1 reset q 0\n2 b 0 0\n3 reset s 0 0\n\
                                  4 c 0 0 0\n5 reset x 0 0 0\n6 d 0 0 0\n\
                                  7 c 0 0 1\n8 reset x 0 0 1\n9 d 0 0 1\n\
                                  10 a 1\n11 reset q 1\n12 b 1 0\n13 reset s 1 0\n\
                                  14 c 1 0 0\n15 reset x 1 0 0\n16 d 1 0 0\n\
                                  17 c 1 0 1\n18 reset x 1 0 1\n19 d 1 0 1\n\
                                  20 reset o\n21 e\n";

// ---------------------------------------------------------------------------
// Listings
// ---------------------------------------------------------------------------

/// Texts, each with what the listing program prints for it.
pub fn listings() -> Vec<(Vec<u8>, String)> {
    let mut listings = accepted();
    listings.extend(refused().into_iter().map(|(text, (number, place))| {
        let line = format!("refused {number} {place}\n");
        (text, line)
    }));
    listings
}

/// Those of them that are accepted.
pub fn accepted() -> Vec<(Vec<u8>, String)> {
    let drawings = [
        (T.to_string(), T_LISTING.to_string()),
        (U.to_string(), U_LISTING.to_string()),
        (format!(" \n{}\n", U.replace('(', " ( ")), U_LISTING.to_string()),
        (after_each_token(T, "# a note"), T_LISTING.to_string()),
        (format!("#\n# reset r\n{} # c", after_each_token(U, " #, # 1)\n")), U_LISTING.to_string()),
        (root(NESTED), NESTED_LISTING.to_string()),
        (root(THREE_DEEP), THREE_DEEP_LISTING.to_string()),
        (nested_flows(11), "events 1 copies 12\n0 a\n".to_string()),
        (root_with_leaves(255), format!("events 255 copies 256\n{}", leaf_lines(0, 255))),
        (many_events(16), format!("events 512 copies 544\n{}{}", copied_lines(31), leaf_lines(31 * 16, 16))),
        (many_copies(8), format!("events 376 copies 768\n{}{}", copied_lines(23), leaf_lines(23 * 16, 8))),
    ];
    let mut accepted: Vec<_> = drawings.map(|(text, listing)| (text.into_bytes(), listing)).into();
    accepted.push((pad_between(T.as_bytes(), TEXT_LIMIT), T_LISTING.to_string()));
    for before in [true, false] {
        accepted.push((padded_by_a_remark(T.as_bytes(), TEXT_LIMIT, before), T_LISTING.to_string()));
    }
    accepted
}

/// The leaves c0, c1, .. each in 16 copies.
fn copied_lines(leaves: usize) -> String {
    (0..leaves * 16).map(|event| format!("{event} c{} {}\n", event / 16, event % 16)).collect()
}

/// The leaves solid, n0, n1, .. from an event on.
fn leaf_lines(first: usize, count: usize) -> String {
    let others: String = (1..count).map(|at| format!("{} n{}\n", first + at, at - 1)).collect();
    format!("{first} solid\n{others}")
}

/// Texts that are turned away, some for each number of reading.
fn refused() -> Vec<(Vec<u8>, Refusal)> {
    let word = "a".repeat(25);
    let many_leaves = root_with_leaves(256);
    let many_flows = nested_flows(12);
    let refused: [(&str, Refusal); 14] = [
        ("flow\t", (3, 4)),
        (&format!("){word}){word}"), (4, 1)),
        ("", (5, 0)),
        (" \n ", (5, 3)),
        (&T[..20], (5, 20)),
        (&format!("{T})"), (5, T.len())),
        (&many_leaves, (6, many_leaves.rfind("leaf").expect("there are leaves"))),
        (&many_flows, (6, many_flows.rfind("leaf").expect("there is a leaf"))),
        ("flow(a,1)(leaf(a)(1))", (7, 15)),
        (" flow(a,v,1)(leaf(b)(1))", (8, 1)),
        ("flow(a,1)(leaf(b)(0))", (9, 0)),
        ("flow(a,1)(flow(b,0)(leaf(c)(1))(1))", (10, 10)),
        (&many_events(17), (11, 0)),
        (&many_copies(9), (11, 0)),
    ];
    let mut refused: Vec<_> = refused.map(|(text, refusal)| (text.as_bytes().to_vec(), refusal)).into();
    for length in [TEXT_LIMIT + 1, 200_000] {
        refused.push((pad_between(T.as_bytes(), length), (2, TEXT_LIMIT)));
        refused.push((padded_by_a_remark(T.as_bytes(), length, false), (2, TEXT_LIMIT)));
        refused.push((vec![0; length], (2, TEXT_LIMIT)));
    }
    refused.extend(refused_with_remarks());
    refused
}

/// The same with remarks: places are counted in the text as it stands.
fn refused_with_remarks() -> Vec<(Vec<u8>, Refusal)> {
    let refused: [(&[u8], Refusal); 14] = [
        (b"#\t", (3, 1)),
        (b"flow #\x1f\n", (3, 6)),
        (b"# a\r\n", (3, 3)),
        (b") # \x7f\n!", (3, 4)),
        (b"# a note\n!#\xff", (3, 9)),
        (b"#a_word_of_26_bytes_is_here\na_word_of_26_bytes_is_here", (4, 28)),
        (b"#", (5, 1)),
        (b"# a note\n#\n", (5, 11)),
        (b"#(\n)#", (5, 3)),
        (b"flow(a,1)(le#x\naf(b)(1))", (5, 10)),
        (b"flow(a,1)(leaf(a# a note\n)(1))", (7, 15)),
        (b"#\nflow(a#\n,v,1)(leaf(b)(1))", (8, 2)),
        (b"flow(a,1)(# a note\nflow(b,1)(leaf(c)(0))(1))", (9, 19)),
        (b"flow(a,1)(#\n#\nflow(b,0)(leaf(c)(1))(1))", (10, 14)),
    ];
    refused.map(|(text, refusal)| (text.to_vec(), refusal)).into()
}

// ---------------------------------------------------------------------------
// Names and values
// ---------------------------------------------------------------------------

/// What the name call and the values call say of an event of a text.
pub struct Answer {
    pub text: Vec<u8>,
    pub event: u64,
    pub name: Range<usize>,
    pub values: Result<Values, Refusal>,
}

pub fn answers() -> Vec<Answer> {
    let mut answers = event_answers();
    for event in [0, 4, 1 << 32, u64::MAX] {
        answers.extend(refused().into_iter().map(|(text, refusal)| turned_away(&text, event, refusal)));
    }
    for event in [4, 5, 512, 1 << 16, 1 << 32, (1 << 32) + 2, 1 << 63, u64::MAX] {
        answers.push(turned_away(U.as_bytes(), event, (14, 0)));
    }
    answers
}

fn event_answers() -> Vec<Answer> {
    let spread = pad_between(U.as_bytes(), TEXT_LIMIT);
    let spread = std::str::from_utf8(&spread).expect("no byte is foreign");
    vec![
        leaf(T, 0, "leaf(take)", &[]),
        leaf(T, 1, "leaf(fill)", &[]),
        leaf(T, 4, "leaf(free)", &[]),
        reset(U, 2, "flow(r,", &[]),
        reset(spread, 2, "r", &[]),
        leaf(&after_each_token(T, "# a note"), 2, "send", &[]),
        reset(&after_each_token(U, "#!"), 2, "r", &[]),
        leaf(U, 3, "leaf(c)", &[]),
        leaf(&root(NESTED), 1, "leaf(l)", &[0, 1]),
        leaf(&root(NESTED), 4, "leaf(l)", &[1, 0]),
        reset(&root(NESTED), 6, "flow(m,", &[1]),
        leaf(&root(NESTED), 8, "leaf(z)", &[]),
        leaf(&root(THREE_DEEP), 7, "leaf(c)", &[0, 0, 1]),
        reset(&root(THREE_DEEP), 15, "flow(x,", &[1, 0, 0]),
        reset(&root(THREE_DEEP), 20, "flow(o,", &[]),
        leaf(&many_events(16), 495, "leaf(c30)", &[15]),
        leaf(&many_events(16), 511, "leaf(n14)", &[]),
        leaf(&many_copies(8), 26, "leaf(c1)", &[10]),
        leaf("flow(a,1)(leaf(a_name_of_24_bytes_in_al)(1))", 0, "leaf(a_name_of_24_bytes_in_al)", &[]),
        // A par with the leaf's name stands before it in the text.
        leaf("flow(a,1)(all(b:2)(leaf(b))(0)leaf(c)(1))", 1, "leaf(b)", &[1]),
    ]
}

/// An event whose name is the last word in a part of the text; the part is
/// met there first.
fn told(text: &str, event: u64, part: &str, values: Values) -> Answer {
    let place = text.find(part).expect("the part stands in the text");
    let end = place + part.trim_end_matches([')', ',']).len();
    let start = text[..end].rfind(['(', ' ', '\n']).expect("no name starts the text") + 1;
    Answer { text: text.as_bytes().to_vec(), event, name: start..end, values: Ok(values) }
}

fn leaf(text: &str, event: u64, part: &str, list: &[usize]) -> Answer {
    told(text, event, part, Values { reset: false, list: list.to_vec() })
}

fn reset(text: &str, event: u64, part: &str, list: &[usize]) -> Answer {
    told(text, event, part, Values { reset: true, list: list.to_vec() })
}

fn turned_away(text: &[u8], event: u64, refusal: Refusal) -> Answer {
    Answer { text: text.to_vec(), event, name: 0..0, values: Err(refusal) }
}
