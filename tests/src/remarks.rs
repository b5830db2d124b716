//! Remarks in texts: random ones, a fixed list of texts with them, and what a text
//! has of them. A line has at most one, from its first # on, and so they are told
//! line by line here; the reader goes byte by byte.

use crate::generate::{every_constructor, many_events, pad_end, pad_front, root, tokens_of, Random, Tokens, T, U};
use crate::kit::Counts;
use crate::{is_keyword, is_mark, is_word_byte, read, TEXT_LIMIT, WORD_LIMIT};
use std::ops::Range;

// ---------------------------------------------------------------------------
// Where remarks stand
// ---------------------------------------------------------------------------

/// A line without the byte 10 that ends it.
struct Line<'t> {
    place: usize,
    before: &'t [u8],
    /// Empty if the line has none.
    remark: &'t [u8],
}

fn lines(text: &[u8]) -> Vec<Line<'_>> {
    let mut lines = Vec::new();
    let mut place = 0;
    for line in text.split(|byte| *byte == b'\n') {
        let start = line.iter().position(|byte| *byte == b'#').unwrap_or(line.len());
        let (before, remark) = line.split_at(start);
        lines.push(Line { place, before, remark });
        place += line.len() + 1;
    }
    lines
}

impl Line<'_> {
    fn has_remark(&self) -> bool {
        !self.remark.is_empty()
    }

    fn has_token(&self) -> bool {
        self.before.iter().any(|byte| *byte != b' ')
    }

    fn ends_in_a_word(&self) -> bool {
        self.before.last().is_some_and(|byte| is_word_byte(*byte))
    }

    fn begins_with_a_word(&self) -> bool {
        self.before.first().is_some_and(|byte| is_word_byte(*byte))
    }

    fn range(&self) -> Range<usize> {
        let start = self.place + self.before.len();
        start..start + self.remark.len()
    }
}

/// Where the remarks of a text stand, whatever bytes they hold.
pub fn remarks_in(text: &[u8]) -> Vec<Range<usize>> {
    lines(text).iter().filter(|line| line.has_remark()).map(Line::range).collect()
}

/// A text with a blank in the place of each byte of its remarks.
pub fn blanked(text: &[u8]) -> Vec<u8> {
    let mut blanked = text.to_vec();
    remarks_in(text).into_iter().for_each(|remark| blanked[remark].fill(b' '));
    blanked
}

// ---------------------------------------------------------------------------
// Random remarks
// ---------------------------------------------------------------------------

/// Remarks of many looks, the first one with nothing in it.
const LOOKS: [&str; 10] = [
    "#",
    "##",
    "# ",
    "#x",
    "# a note # beside a leaf",
    "#leaf(take)(0)",
    "# flow xor loop",
    "#(),:",
    "#!\"$%&'*+-./;<=>?@[\\]^`{|}~",
    "# a_word_of_far_more_than_24_bytes",
];

/// A remark without the byte 10 that ends it.
fn remark(random: &mut Random) -> Vec<u8> {
    match random.below(4) {
        0 => {
            let length = random.within(0, 40);
            let held = (0..length).map(|_| random.within(32, 126) as u8);
            [b'#'].into_iter().chain(held).collect()
        }
        _ => random.pick(&LOOKS).as_bytes().to_vec(),
    }
}

fn ended_remark(random: &mut Random) -> Vec<u8> {
    [remark(random), b"\n".to_vec()].concat()
}

/// Blanks and remarks, one or several in a row.
fn gap(random: &mut Random) -> Vec<u8> {
    let piece = |random: &mut Random| match random.once_in(3) {
        true => vec![*random.pick(b" \n")],
        false => ended_remark(random),
    };
    (0..random.within(1, 3)).flat_map(|_| piece(random)).collect()
}

/// So many gaps do not take a drawing past the longest text, unless it is long
/// without them.
const MOST_GAPS: usize = 200;

/// Joins tokens with remarks before, between and after them.
pub fn spread_with_remarks(tokens: &Tokens, random: &mut Random) -> Vec<u8> {
    let one_in = (*random.pick(&[1, 2, 4, 10])).max(tokens.len() / MOST_GAPS);
    let mut text = Vec::new();
    for token in tokens {
        if random.once_in(one_in) {
            text.extend(gap(random));
        }
        text.extend_from_slice(token.as_bytes());
    }
    match random.below(3) {
        0 => {}
        1 => text.extend(gap(random)),
        _ => text.extend(remark(random)),
    }
    text
}

/// An accepted text with remarks, now and then as long as a text may be; as it
/// is if they take it past that.
pub fn with_remarks(text: Vec<u8>, random: &mut Random) -> Vec<u8> {
    let mut remarked = spread_with_remarks(&tokens_of(&text), random);
    if random.once_in(8) {
        remarked = padded_by_a_remark(&remarked, TEXT_LIMIT, random.once_in(2));
    }
    match remarked.len() <= TEXT_LIMIT {
        true => remarked,
        false => text,
    }
}

/// Remarks and blanks, hardly ever with a token among them.
pub fn hardly_a_token(random: &mut Random) -> Vec<u8> {
    let mut text: Vec<u8> = (0..random.within(0, 4)).flat_map(|_| gap(random)).collect();
    match random.below(4) {
        0 => text.extend(random.pick(&["flow", "le", "f", ")", "0"]).as_bytes()),
        1 => text.extend(remark(random)),
        _ => {}
    }
    text
}

/// A text with a long remark before or after it, up to a length.
pub fn padded_by_a_remark(text: &[u8], length: usize, before: bool) -> Vec<u8> {
    match length.saturating_sub(text.len()) {
        0 => text.to_vec(),
        room if before => [&long_remark(room - 1), &b"\n"[..], text].concat(),
        room => [text, &long_remark(room)].concat(),
    }
}

/// So many bytes, from the # on in the order of their values, and that again and
/// again.
fn long_remark(length: usize) -> Vec<u8> {
    (b'#'..=126).chain(32..b'#').cycle().take(length).collect()
}

// ---------------------------------------------------------------------------
// Damage by remarks
// ---------------------------------------------------------------------------

/// A # that takes the rest of its line, a whole remark even within a word, the end
/// of a remark taken out, or a foreign byte put into one.
pub fn damage_by_a_remark(text: &mut Vec<u8>, random: &mut Random) {
    let at = random.below(text.len() + 1);
    match random.below(5) {
        0 => text.insert(at, b'#'),
        1 | 2 => drop(text.splice(at..at, ended_remark(random))),
        3 => take_an_end_out(text, random),
        _ => {
            text.splice(at..at, ended_remark(random));
            spoil(text, random);
        }
    }
}

/// Takes the byte 10 after a remark out, if one has it.
fn take_an_end_out(text: &mut Vec<u8>, random: &mut Random) {
    let ends: Vec<usize> = remarks_in(text).iter().map(|remark| remark.end).filter(|end| *end < text.len()).collect();
    if !ends.is_empty() {
        text.remove(*random.pick(&ends));
    }
}

/// Puts a foreign byte into a remark, if there is one.
pub fn spoil(text: &mut Vec<u8>, random: &mut Random) {
    let remarks = remarks_in(text);
    if !remarks.is_empty() {
        let Range { start, end } = random.pick(&remarks).clone();
        text.insert(random.within(start + 1, end), foreign_byte(random));
    }
}

/// Bytes at the edges of what no remark may hold.
const FOREIGN: [u8; 5] = [9, 13, 31, 127, 255];

/// A byte that no remark may hold.
fn foreign_byte(random: &mut Random) -> u8 {
    match random.once_in(4) {
        true => *random.pick(&[0, 1, 8, 11, 12, 14, 27, 30, 128, 129, 160, 195, 254]),
        false => *random.pick(&FOREIGN),
    }
}

// ---------------------------------------------------------------------------
// Fixed texts
// ---------------------------------------------------------------------------

/// A drawing with a remark of this look and byte 10 after each token.
pub fn after_each_token(drawing: &str, look: &str) -> String {
    tokens_of(drawing.as_bytes()).iter().map(|token| format!("{token}{look}\n")).collect()
}

/// A root with so many leaves, one to a line, and a remark on every line.
pub fn leaves_with_remarks(count: usize) -> String {
    let note = "# here stands what the planners note beside it";
    let leaf = |at: usize| format!("  leaf(n{at})({}) {note}\n", usize::from(at == 0));
    let leaves: String = (0..count).map(leaf).collect();
    format!("flow(root,1)( {note}\n{leaves}) {note}\n")
}

/// Texts with remarks, the same at each call.
pub fn remark_texts() -> Vec<Vec<u8>> {
    let mut texts = remarks_alone();
    texts.extend(remarks_among_tokens());
    texts.extend(remarks_anywhere());
    texts.extend(bytes_in_remarks());
    texts.extend(words_and_remarks());
    texts.extend(lengths_with_remarks());
    texts.extend(faults_and_remarks());
    texts
}

fn remarks_alone() -> Vec<Vec<u8>> {
    let mut texts = vec![LOOKS.join("\n"), LOOKS.join(" \n\n "), LOOKS.concat()];
    for look in LOOKS {
        texts.extend([look.to_string(), format!("{look}\n"), format!("\n {look}\n{look}"), format!("{look}\n \n")]);
    }
    texts.into_iter().map(String::into_bytes).collect()
}

/// After every token, before the first, and at the end with and without byte 10.
fn remarks_among_tokens() -> Vec<Vec<u8>> {
    let mut texts = Vec::new();
    for drawing in [T, U, &every_constructor()] {
        for look in LOOKS {
            let after = after_each_token(drawing, look);
            texts.extend([format!("{look}\n{after}"), after[..after.len() - 1].to_string(), after]);
            texts.extend([format!("{look}\n{drawing}"), format!("{drawing}{look}"), format!("{drawing} {look}\n")]);
            texts.push(after_each_token(drawing, &format!(" {look}\n\n{look}\n ")));
        }
    }
    texts.into_iter().map(String::into_bytes).collect()
}

/// At every place of T and U, within words too, and with the rest of the line
/// taken by a remark that nothing ends.
fn remarks_anywhere() -> Vec<Vec<u8>> {
    let mut texts = Vec::new();
    for drawing in [T, U] {
        for at in 0..=drawing.len() {
            let (before, after) = drawing.split_at(at);
            let parts = ["#", "#\n", "#x\n", "# leaf(q)(0)\n", "#\n#x\n", "#\r\n"];
            texts.extend(parts.map(|part| [before, part, after].concat().into_bytes()));
        }
    }
    texts
}

/// Each byte value in a remark: alone, before, within and after a drawing.
fn bytes_in_remarks() -> Vec<Vec<u8>> {
    let mut texts = Vec::new();
    let (front, back) = T.as_bytes().split_at(13);
    for byte in 0..=255u8 {
        texts.push(vec![b'#', byte]);
        texts.push([b"#x", &[byte][..], b"y\n", T.as_bytes()].concat());
        texts.push([front, b"#", &[byte], b"\n", back].concat());
        texts.push([T.as_bytes(), b" # x", &[byte]].concat());
    }
    texts
}

/// Words around the longest length beside remarks, in remarks, and in two parts.
fn words_and_remarks() -> Vec<Vec<u8>> {
    let mut texts = Vec::new();
    for length in [1, 2, 23, 24, 25, 26, 48, 300] {
        let word = "a".repeat(length);
        let (left, right) = word.split_at(length / 2);
        texts.extend([format!("#{word}"), format!("{word}#"), format!("{word}#{word}\n{word}")]);
        texts.extend([format!("#{word}\n{T}"), format!("{T}#{word} {word}"), format!("{T}#\n{word}")]);
        for inside in [format!("{word}#\n"), format!("{word}#{word}\n"), format!("{left}#\n{right}")] {
            texts.push(root(&format!("leaf({inside})(1)")));
            texts.push(root(&format!("all({inside}:2)(leaf(b))(0)leaf(a)(1)")));
        }
    }
    for broken in ["fl#\now", "flow(t,1)(le#x\naf", "flow(t,1)(all(v:1#\n6", "flow(t,1)(leaf(a)(1)#\n1"] {
        texts.push(broken.to_string());
    }
    texts.into_iter().map(String::into_bytes).collect()
}

/// Texts that a remark takes to lengths around the limit, the last or first byte
/// of the remark foreign too.
fn lengths_with_remarks() -> Vec<Vec<u8>> {
    let mut texts = Vec::new();
    for length in [TEXT_LIMIT - 1, TEXT_LIMIT, TEXT_LIMIT + 1, TEXT_LIMIT + 2, 20_000] {
        for drawing in ["", &T[..20], T, &many_events(16)] {
            for before in [true, false] {
                texts.push(padded_by_a_remark(drawing.as_bytes(), length, before));
            }
            for byte in [31, 127] {
                texts.push(padded_by_a_remark(&[drawing.as_bytes(), b"#", &[byte]].concat(), length, false));
                texts.push([padded_by_a_remark(drawing.as_bytes(), length - 1, false), vec![byte]].concat());
            }
        }
        texts.push(pad_end(format!("{T}# a note").as_bytes(), length));
        texts.push(pad_front(format!("# a note\n{T}#").as_bytes(), length));
    }
    texts
}

/// Foreign bytes in remarks and outside, and other faults, before and after one
/// another; faults whose places stand after remarks.
fn faults_and_remarks() -> Vec<Vec<u8>> {
    let long = "a".repeat(25);
    let drawings = ["flow(a,1)(leaf(a)(1))", "flow(a,v,0)(leaf(b)(1))", "flow(a,0)(leaf(b)(0))"];
    let mut texts = Vec::new();
    for fault in [")", "leaf", "!", "\t", &long].into_iter().chain(drawings) {
        for remark in ["# a note", "#\t", "#\x1f", "#\x7f", "# \u{e9}", "#\r"] {
            texts.extend([format!("{fault}{remark}"), format!("{remark}\n{fault}")]);
            texts.extend([format!("{fault}{remark}\n{fault}"), format!("{remark}\n{fault}{remark}\n")]);
        }
        texts.push(format!("# {fault}\n{T}"));
        texts.push(format!("{T} # {fault}"));
        texts.push(format!("# a note\n{T}#\n{fault}"));
    }
    texts.into_iter().map(String::into_bytes).collect()
}

// ---------------------------------------------------------------------------
// What a text has of remarks
// ---------------------------------------------------------------------------

/// All that `add_remarks` counts.
pub const REMARKS: [&str; 22] = [
    "remark after a token",
    "remark before the first token",
    "remark at the end, without byte 10",
    "remark right after a remark",
    "remark of a # alone",
    "remark with a # inside",
    "remark with a word of over 24 bytes inside",
    "remark with a keyword inside",
    "remark with one of ( ) , : inside",
    "word ended by a remark",
    "word broken by a remark",
    "text of remarks only",
    "accepted text with remarks",
    "accepted text of 16,384 bytes with remarks",
    "text of 16,385 bytes that ends in a remark",
    "byte 9 in a remark, the first foreign one",
    "byte 13 in a remark, the first foreign one",
    "byte 31 in a remark, the first foreign one",
    "byte 127 in a remark, the first foreign one",
    "byte 255 in a remark, the first foreign one",
    "foreign byte in a remark, off grammar before it",
    "foreign byte in a remark, off grammar after it",
];

/// Counts what a text has of remarks. Where it is too long or has a foreign byte,
/// nothing else of it is looked at by any reader.
pub fn add_remarks(text: &[u8], counts: &mut Counts) {
    let remarks = remarks_in(text);
    match read(text) {
        _ if remarks.is_empty() => {}
        Err((2, _)) => {
            let one_past = text.len() == TEXT_LIMIT + 1 && remarks.iter().any(|remark| remark.end == text.len());
            counts.add_if(one_past, "text of 16,385 bytes that ends in a remark");
        }
        Err((3, place)) => {
            if remarks.iter().any(|remark| remark.contains(&place)) {
                add_foreign(text, place, counts);
            }
        }
        answer => {
            add_places(&lines(text), counts);
            add_held(&lines(text), counts);
            counts.add_if(answer.is_ok(), "accepted text with remarks");
            let longest = answer.is_ok() && text.len() == TEXT_LIMIT;
            counts.add_if(longest, "accepted text of 16,384 bytes with remarks");
        }
    }
}

/// The first foreign byte of the text is in a remark.
fn add_foreign(text: &[u8], place: usize, counts: &mut Counts) {
    let byte = text[place];
    counts.add_if(FOREIGN.contains(&byte), &format!("byte {byte} in a remark, the first foreign one"));
    if let Err((5, fault)) = read(&blanked(text)) {
        let side = if fault < place { "before" } else { "after" };
        counts.add(&format!("foreign byte in a remark, off grammar {side} it"));
    }
}

fn add_places(lines: &[Line], counts: &mut Counts) {
    let any = |holds: fn(&Line) -> bool| lines.iter().any(|line| line.has_remark() && holds(line));
    let two =
        |holds: fn(&Line, &Line) -> bool| lines.windows(2).any(|two| two[0].has_remark() && holds(&two[0], &two[1]));
    let first_token = lines.iter().position(Line::has_token);
    let before_all = first_token.is_some_and(|first| lines[..first].iter().any(Line::has_remark));
    counts.add_if(any(|line| line.has_token()), "remark after a token");
    counts.add_if(before_all, "remark before the first token");
    counts.add_if(lines.last().is_some_and(Line::has_remark), "remark at the end, without byte 10");
    counts.add_if(two(|_, next| next.has_remark() && !next.has_token()), "remark right after a remark");
    counts.add_if(any(|line| line.ends_in_a_word()), "word ended by a remark");
    counts.add_if(two(|line, next| line.ends_in_a_word() && next.begins_with_a_word()), "word broken by a remark");
    counts.add_if(first_token.is_none(), "text of remarks only");
}

fn add_held(lines: &[Line], counts: &mut Counts) {
    let remarks: Vec<&[u8]> = lines.iter().filter(|line| line.has_remark()).map(|line| line.remark).collect();
    let any = |holds: fn(&[u8]) -> bool| remarks.iter().any(|remark| holds(&remark[1..]));
    let words = || remarks.iter().flat_map(|remark| remark.split(|byte| !is_word_byte(*byte)));
    let is_keyword = |word: &[u8]| std::str::from_utf8(word).is_ok_and(is_keyword);
    counts.add_if(any(<[u8]>::is_empty), "remark of a # alone");
    counts.add_if(any(|held| held.contains(&b'#')), "remark with a # inside");
    counts.add_if(any(|held| held.iter().any(|byte| is_mark(*byte))), "remark with one of ( ) , : inside");
    let long = words().any(|word| word.len() > WORD_LIMIT);
    counts.add_if(long, "remark with a word of over 24 bytes inside");
    counts.add_if(words().any(is_keyword), "remark with a keyword inside");
}
