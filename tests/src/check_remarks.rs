//! Remarks: each sentence of their card on small texts, and the reader a second
//! time in other ways. A remark is worth as many blanks, a foreign byte is found
//! by looking back to the start of its line, and what stands before or after a
//! text moves its places and nothing else.

use crate::drawings::{accepted_text, Size};
use crate::generate::{
    damaged, edge_texts, every_constructor, many_copies, many_events, nested_flows, random_text, root_with_leaves,
    Random, T, U,
};
use crate::kit::Counts;
use crate::listing::{events, listing};
use crate::remarks::{
    add_remarks, after_each_token, blanked, leaves_with_remarks, padded_by_a_remark, remarks_in, REMARKS,
};
use crate::{plain, print, read, Refusal, Summary, TEXT_LIMIT};

fn refusal(text: &str) -> Option<Refusal> {
    read(text.as_bytes()).err()
}

/// Fixed and random texts, with remarks and without.
fn texts() -> impl Iterator<Item = Vec<u8>> {
    let random = (0..4_000).map(|seed| random_text(seed + 5_000));
    edge_texts().into_iter().chain(random).chain((0..300).flat_map(|seed| {
        let random = &mut Random::new(seed);
        let size = *random.pick(&[Size::Small(8), Size::Middle, Size::Deep]);
        let text = accepted_text(size, random);
        [damaged(text.clone(), random), text]
    }))
}

// ---------------------------------------------------------------------------
// The card's sentences
// ---------------------------------------------------------------------------

#[test]
fn a_remark_runs_up_to_byte_10_or_the_end() {
    assert_eq!(refusal(&format!("{T}#")), None);
    assert_eq!(refusal(&format!("{T}# a note")), None);
    assert_eq!(refusal(&format!("{T}# a note )")), None);
    assert_eq!(refusal(&format!("{T}# a note\n)")), Some((5, T.len() + 9)));
    assert_eq!(refusal(&format!("{T}#\n)")), Some((5, T.len() + 2)));
    assert_eq!(refusal(&format!("# a note\n{T}")), None);
    assert_eq!(refusal(&format!("# a note {T}")), Some((5, T.len() + 9)));
    // A # in a remark is a part of it.
    assert_eq!(refusal(&format!("# a # note ##\n{T}## #")), None);
    assert_eq!(refusal("#\n# \n##\n)"), Some((5, 8)));
}

#[test]
fn remarks_alone_end_early() {
    for text in ["#", "##", "# a note", "#\n", "# flow(a,1)(leaf(b)(1))", " #\n\n # \n", "#x\n#y\n#z"] {
        assert_eq!(refusal(text), Some((5, text.len())), "{text:?}");
    }
}

#[test]
fn a_remark_ends_a_word() {
    assert_eq!(refusal("flow(a,1)(leaf#x\n(b)(1))"), None);
    assert_eq!(refusal("flow(a,1)(leaf#\n(b)(1))"), None);
    assert_eq!(refusal("flow(a,1)(le#x\naf(b)(1))"), Some((5, 10)));
    assert_eq!(refusal("flow(a#\nb,1)(leaf(b)(1))"), Some((5, 8)));
    assert_eq!(refusal("flow(a,1)(all(v:1#\n6)(leaf(b))(0)leaf(c)(1))"), Some((5, 19)));
    // Two words of 24 bytes where there would be one of 48.
    let word = "a".repeat(24);
    assert_eq!(refusal(&format!("{word}#\n{word}")), Some((5, 0)));
    assert_eq!(refusal(&format!("flow({word}#\n,1)(leaf(b)(1))")), None);
    assert_eq!(refusal(&format!("flow(a#\n{word}a#")), Some((4, 8)));
}

#[test]
fn words_in_remarks_are_none() {
    let word = "a".repeat(25);
    assert_eq!(refusal(&format!("#{word}\n{T}# {word} {word}")), None);
    assert_eq!(refusal(&format!("#{word}\n){word}")), Some((4, 28)));
    assert_eq!(refusal(&format!("#{word}\n)")), Some((5, 27)));
    // Neither names nor keywords, nor brackets.
    assert_eq!(refusal("flow(a,1)(# leaf(b)(1)\nleaf(b)(1)# leaf(b)(1)\n)"), None);
    assert_eq!(refusal(&root_with_leaves(255).replace(")(0)", ")(0)#leaf(n)(0)\n")), None);
    assert_eq!(refusal(&nested_flows(11).replace("leaf", "# flow(\nleaf")), None);
}

#[test]
fn bytes_in_a_remark() {
    for byte in 0..=255u8 {
        let held = (32..=126).contains(&byte) || byte == 10;
        let wanted = |place: usize| if held { None } else { Some((3, place)) };
        let text = [b"# a", &[byte][..], b"\n", T.as_bytes()].concat();
        assert_eq!(read(&text).err(), wanted(3), "byte {byte}");
        let text = [T.as_bytes(), b"#", &[byte]].concat();
        assert_eq!(read(&text).err(), wanted(T.len() + 1), "byte {byte}");
        let alone = [b'#', byte];
        assert_eq!(read(&alone).err(), Some(if held { (5, 2) } else { (3, 1) }), "byte {byte}");
    }
    // Outside of remarks it is as it was, right after one too.
    for byte in [9, 13, 31, 127, 255, b'!', b'~', b'"'] {
        let text = [b"#\n", &[byte][..], b"# "].concat();
        assert_eq!(read(&text), Err((3, 2)), "byte {byte}");
        let text = [T.as_bytes(), &[byte], b"#"].concat();
        assert_eq!(read(&text), Err((3, T.len())), "byte {byte}");
    }
}

#[test]
fn the_first_foreign_byte_counts() {
    assert_eq!(refusal("#\t\n!"), Some((3, 1)));
    assert_eq!(refusal("!#\t"), Some((3, 0)));
    assert_eq!(refusal("# a!b\n\t"), Some((3, 6)));
    assert_eq!(refusal("# \x1f \x7f"), Some((3, 2)));
    assert_eq!(refusal(&format!("{} # \x7f", "a".repeat(25))), Some((3, 28)));
    // Before a fault of grammar, and after one.
    assert_eq!(refusal("#\r\n)"), Some((3, 1)));
    assert_eq!(refusal(")#\r\n"), Some((3, 2)));
}

#[test]
fn remarks_count_for_the_length() {
    for before in [true, false] {
        let long = |length: usize| padded_by_a_remark(T.as_bytes(), length, before);
        assert_eq!(long(TEXT_LIMIT).len(), TEXT_LIMIT);
        assert_eq!(read(&long(TEXT_LIMIT)).map(|summary| summary.events), Ok(5));
        assert_eq!(read(&long(TEXT_LIMIT + 1)), Err((2, TEXT_LIMIT)));
    }
    assert_eq!(read(&vec![b'#'; TEXT_LIMIT]), Err((5, TEXT_LIMIT)));
    assert_eq!(read(&vec![b'#'; TEXT_LIMIT + 1]), Err((2, TEXT_LIMIT)));
    let last = [vec![b'#'; TEXT_LIMIT - 1], vec![0]].concat();
    assert_eq!(read(&last), Err((3, TEXT_LIMIT - 1)));
}

#[test]
fn places_are_counted_in_the_text_as_it_stands() {
    let places = |text: &str| -> Vec<(usize, Option<usize>)> {
        read(text.as_bytes()).unwrap().nodes.iter().map(|node| (node.place, node.word_place)).collect()
    };
    let text = "#\nflow#x\n(#\na,1)(all(# v\nv:2)(leaf(b))(0)# leaf\nleaf(c)(1))";
    assert_eq!(places(text), [(2, Some(12)), (17, Some(25)), (30, Some(35)), (48, Some(53))]);
    let text = "flow(a,1)(leaf(b)(1)# note\nleaf(b#\n)(0))";
    assert_eq!(refusal(text), Some((7, 32)));
    let text = "# note\nflow(a,1)(xor(# note\nleaf(b)flow(c,0)(leaf(d)(1)))(1))";
    assert_eq!(refusal(text), Some((10, 35)));
    let text = root_with_leaves(256).replace(")(0)", ")(0)# leaf\n");
    assert_eq!(refusal(&text), Some((6, text.find("leaf(n254)").expect("the last leaf"))));
    assert_eq!(refusal(&many_events(17).replace(")(0)", ")(0)#\n")), Some((11, 0)));
}

/// A summary without its places.
fn without_places(mut summary: Summary) -> Summary {
    for node in &mut summary.nodes {
        (node.place, node.word_place) = (0, None);
    }
    summary
}

/// A diagram is the same with remarks and without.
#[test]
fn a_remark_after_every_token() {
    let large = [every_constructor(), many_copies(8), nested_flows(11), leaves_with_remarks(64)];
    for drawing in [T, U].into_iter().chain(large.iter().map(String::as_str)) {
        let plain = read(drawing.as_bytes()).map(without_places);
        for look in ["#", "# a note", "#leaf(x)(0)", " # a\n # note "] {
            let text = after_each_token(drawing, look);
            let open = &text[..text.len() - 1];
            for noted in [&text, open, &format!("{look}\n{text}")].map(str::as_bytes) {
                assert_eq!(read(noted).map(without_places), plain);
                assert_eq!(print(noted, TEXT_LIMIT), print(drawing.as_bytes(), TEXT_LIMIT));
                assert_eq!(listing(noted), listing(drawing.as_bytes()));
            }
        }
    }
    let text = after_each_token(T, "# a note");
    assert_eq!(print(text.as_bytes(), TEXT_LIMIT), Ok(T.as_bytes().to_vec()));
    assert_eq!(print(text.as_bytes(), TEXT_LIMIT - 1), Err((1, 0)));
}

// ---------------------------------------------------------------------------
// The same in other ways
// ---------------------------------------------------------------------------

/// What may stand outside of remarks.
const OUTSIDE: &[u8] = b"ABCDEFGHIJKLMNOPQRSTUVWXYZabcdefghijklmnopqrstuvwxyz0123456789_(),: \n";

/// The first foreign byte: for each byte its line is looked at up to it.
fn first_foreign(text: &[u8]) -> Option<usize> {
    (0..text.len()).find(|&place| {
        let line = text[..=place].rsplit(|byte| *byte == b'\n').next().unwrap_or_default();
        match line.contains(&b'#') {
            true => text[place] < 32 || text[place] > 126,
            false => !OUTSIDE.contains(&text[place]),
        }
    })
}

/// Longer texts would be gone through again and again.
const LONGEST: usize = 1_000;

#[test]
fn the_first_foreign_byte_is_found_by_looking_back() {
    let (mut inside, mut outside, mut none) = (0, 0, 0);
    for text in texts().filter(|text| text.len() <= LONGEST) {
        let wanted = first_foreign(&text);
        let given = read(&text).err().filter(|(number, _)| *number == 3).map(|(_, place)| place);
        assert_eq!(given, wanted, "b\"{}\"", text.escape_ascii());
        let is_inside = |place| remarks_in(&text).iter().any(|remark| remark.contains(&place));
        *wanted.map_or(&mut none, |place| if is_inside(place) { &mut inside } else { &mut outside }) += 1;
    }
    assert!(inside > 500 && outside > 500 && none > 500, "{inside} in a remark, {outside} not, {none} without");
}

/// With blanks in the place of its remarks a text gets the same answers, places
/// included.
#[test]
fn remarks_are_worth_as_many_blanks() {
    let (mut accepted, mut refused) = (0, 0);
    for text in texts() {
        let remarks = remarks_in(&text);
        let in_a_remark = |place: usize| remarks.iter().any(|remark| remark.contains(&place));
        if remarks.is_empty() || matches!(read(&text), Err((3, place)) if in_a_remark(place)) {
            continue;
        }
        let blanked = blanked(&text);
        assert_eq!(read(&text), read(&blanked), "b\"{}\"", text.escape_ascii());
        assert_eq!(print(&text, TEXT_LIMIT), print(&blanked, TEXT_LIMIT));
        assert_eq!(listing(&text), listing(&blanked));
        assert_eq!(events(&text), events(&blanked));
        *(if read(&text).is_ok() { &mut accepted } else { &mut refused }) += 1;
    }
    assert!(accepted > 500 && refused > 500, "{accepted} accepted, {refused} refused");
}

/// An answer with all places later by so many bytes; a text with too many copies
/// is refused as a whole.
fn moved(answer: Result<Summary, Refusal>, by: usize) -> Result<Summary, Refusal> {
    match answer {
        Ok(mut summary) => {
            for node in &mut summary.nodes {
                node.place += by;
                node.word_place = node.word_place.map(|place| place + by);
            }
            Ok(summary)
        }
        Err((11, 0)) => Err((11, 0)),
        Err((number, place)) => Err((number, place + by)),
    }
}

#[test]
fn a_remark_before_a_text_moves_its_places() {
    for text in texts().filter(|text| text.len() + 20 <= TEXT_LIMIT) {
        for remark in [&b"#\n"[..], b"# a note, (\n", b"#leaf\n#\n"] {
            let noted = [remark, &text].concat();
            assert_eq!(read(&noted), moved(read(&text), remark.len()), "b\"{}\"", noted.escape_ascii());
        }
    }
}

/// Only what is missing at the end is missing later.
#[test]
fn a_remark_after_a_text_changes_nothing() {
    for text in texts().filter(|text| text.len() + 20 <= TEXT_LIMIT) {
        for remark in [&b"\n#"[..], b"\n# a note, )", b"\n#\n#leaf\n"] {
            let noted = [&text, remark].concat();
            let wanted = match read(&text) {
                Err((5, place)) if place == text.len() => Err((5, noted.len())),
                answer => answer,
            };
            assert_eq!(read(&noted), wanted, "b\"{}\"", noted.escape_ascii());
        }
    }
}

/// The baseline of the benchmark does the job that it is timed for.
#[test]
fn plain_printing_drops_remarks() {
    for text in texts().filter(|text| !remarks_in(text).is_empty()) {
        let mut out = vec![0x80; TEXT_LIMIT];
        let given = plain::print(&text, &mut out).map(|length| out[..length].to_vec());
        assert_eq!(given, print(&text, TEXT_LIMIT), "b\"{}\"", text.escape_ascii());
    }
}

// ---------------------------------------------------------------------------
// What is generated
// ---------------------------------------------------------------------------

#[test]
fn random_texts_have_remarks_of_all_sorts() {
    let mut counts = Counts::new(REMARKS.map(String::from));
    let (mut with, mut all) = (0, 0);
    for seed in 0..20_000 {
        let text = random_text(seed);
        add_remarks(&text, &mut counts);
        with += usize::from(!remarks_in(&text).is_empty());
        all += 1;
    }
    assert!(counts.unmet().is_empty(), "never came up: {:?}", counts.unmet());
    assert!(8 * with > all && 2 * with < all, "{with} of {all} texts have remarks");
}

#[test]
fn accepted_texts_have_remarks_now_and_then() {
    let (mut with, mut longest) = (0, 0);
    for seed in 0..400 {
        let random = &mut Random::new(seed);
        let size = *random.pick(&[Size::Small(8), Size::Middle, Size::Deep, Size::Full]);
        let text = accepted_text(size, random);
        let remarks = remarks_in(&text);
        assert!(read(&text).is_ok(), "b\"{}\"", text.escape_ascii());
        with += usize::from(!remarks.is_empty());
        longest += usize::from(!remarks.is_empty() && text.len() == TEXT_LIMIT);
    }
    assert!((20..120).contains(&with) && longest > 0, "{with} of 400 have remarks, {longest} of them at the limit");
}

/// What the benchmark reads: some 4,000 bytes.
#[test]
fn leaves_with_a_remark_on_every_line() {
    let text = leaves_with_remarks(64);
    assert!((3_800..4_200).contains(&text.len()), "{} bytes", text.len());
    assert_eq!(remarks_in(text.as_bytes()).len(), text.lines().count());
    assert_eq!(read(text.as_bytes()).map(|summary| (summary.events, summary.copies)), Ok((64, 65)));
}
