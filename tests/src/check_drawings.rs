//! The reference itself, on the drawings of document 01 and on small texts
//! whose answer is plain from the paper.

use crate::generate::{
    edge_texts, every_constructor, longest_drawing, many_copies, many_events, nested_flows, pad_between,
    random_text, root, root_with_leaves, T, U,
};
use crate::{print, read, Kind, Refusal, TEXT_LIMIT};

fn counts(text: &str) -> Result<(usize, usize), Refusal> {
    read(text.as_bytes()).map(|summary| (summary.events, summary.copies))
}

/// The refusal with this number at the place where `part` begins.
fn at(number: u8, text: &str, part: &str) -> Result<(usize, usize), Refusal> {
    Err((number, text.find(part).expect("the part stands in the text")))
}

/// The refusal with this number at the place where `part` begins last.
fn at_last(number: u8, text: &str, part: &str) -> Result<(usize, usize), Refusal> {
    Err((number, text.rfind(part).expect("the part stands in the text")))
}

#[test]
fn drawings_t_and_u() {
    assert_eq!(counts(T), Ok((5, 8)));
    assert_eq!(counts(U), Ok((4, 6)));
}

#[test]
fn nodes_of_u() {
    let nodes = read(U.as_bytes()).unwrap().nodes;
    let seen: Vec<_> =
        nodes.iter().map(|node| (node.kind, node.solid, node.depth, node.name.as_str())).collect();
    let wanted = [
        (Kind::Flow, false, 1, "t"),
        (Kind::Loop, false, 2, ""),
        (Kind::Flow, false, 3, "r"),
        (Kind::Leaf, false, 4, "a"),
        (Kind::Leaf, true, 4, "b"),
        (Kind::Leaf, true, 2, "c"),
    ];
    assert_eq!(seen, wanted);
}

#[test]
fn places_of_nodes() {
    let places = |text: &str| -> Vec<(usize, Option<usize>)> {
        read(text.as_bytes()).unwrap().nodes.iter().map(|node| (node.place, node.word_place)).collect()
    };
    let wanted = [(0, Some(5)), (10, None), (15, Some(20)), (25, Some(30)), (35, Some(40)), (50, Some(55))];
    assert_eq!(places(U), wanted);
    let text = " flow ( a ,1)(all( v:2)(leaf(b))(0)leaf(c)(1))";
    assert_eq!(places(text), [(1, Some(8)), (14, Some(19)), (24, Some(29)), (35, Some(40))]);
}

#[test]
fn every_constructor_is_read() {
    let text = every_constructor();
    let nodes = read(text.as_bytes()).unwrap().nodes;
    let has = |kind| nodes.iter().any(|node| node.kind == kind);
    for kind in [Kind::And, Kind::Or, Kind::Xor, Kind::Loop, Kind::All(2), Kind::One(3)] {
        assert!(has(kind), "{kind:?}");
    }
    assert!(has(Kind::Some(1)) && has(Kind::Some(10)) && has(Kind::One(16)));
    // By hand: and 4, or 4, xor 6, all 1 + k 2 + one 2 + l 6 + some 2 + m 2 + n 2,
    // some 1 + 10, one 1 + 16, loop 2, loop 3, flow 3, root 1.
    // Events: a c d e f h i j, l 6, n 2, o 10, p 16, q, s and its reset, y.
    assert_eq!(counts(&text), Ok((8 + 6 + 2 + 10 + 16 + 4, 4 + 4 + 6 + 17 + 11 + 17 + 9)));
}

#[test]
fn early_ends() {
    assert_eq!(counts(""), Err((5, 0)));
    assert_eq!(counts(" \n "), Err((5, 3)));
    assert_eq!(counts("flow"), Err((5, 4)));
    assert_eq!(counts("flow( "), Err((5, 6)));
    assert_eq!(counts("flo"), Err((5, 0)));
    assert_eq!(counts("fl ow"), Err((5, 0)));
    // Every start of T that ends between tokens ends early.
    for end in T.match_indices(['(', ')', ',']).map(|(place, _)| place) {
        assert_eq!(counts(&T[..end]), Err((5, end)));
        assert_eq!(counts(&format!("{}\n", &T[..end])), Err((5, end + 1)));
    }
}

#[test]
fn tokens_after_the_root() {
    assert_eq!(counts(&format!("{T} )")), Err((5, T.len() + 1)));
    assert_eq!(counts(&format!("{T}flow(x,1)(leaf(y)(1))")), Err((5, T.len())));
    assert_eq!(counts(&format!("{T} \n")), Ok((5, 8)));
}

#[test]
fn words_in_wrong_places() {
    for word in ["_x", "9a", "17", "00", "flow", "loop", "0", "1"] {
        let text = root(&format!("leaf({word})(1)"));
        assert_eq!(counts(&text), at(5, &text, &format!("{word})(1)")), "{word}");
    }
    for size in ["0", "17", "01", "016", "a", "_1", "1a", "160"] {
        let text = root(&format!("all(v:{size})(leaf(a))(0)leaf(b)(1)"));
        assert_eq!(counts(&text), at(5, &text, &format!("{size})(leaf(a")), "{size}");
    }
    for reference in ["00", "01", "2", "a", "10"] {
        let text = root(&format!("leaf(b)({reference})"));
        assert_eq!(counts(&text), at(5, &text, &format!("{reference}))")), "{reference}");
    }
    for sw in ["00", "01", "2", "10"] {
        let text = format!("flow(b,{sw})(leaf(c)(1))");
        assert_eq!(counts(&text), Err((5, 7)), "{sw}");
    }
    // A name in the place of sw is a par; what lacks is the comma after it.
    assert_eq!(counts("flow(b,a)(leaf(c)(1))"), Err((5, 8)));
    assert_eq!(counts("flow(b)(leaf(c)(1))"), Err((5, 6)));
}

#[test]
fn sizes_from_1_to_16() {
    for size in 1..=16 {
        let text = root(&format!("all(v:{size})(leaf(a))(0)leaf(b)(1)"));
        assert_eq!(counts(&text), Ok((size + 1, size + 3)));
    }
}

#[test]
fn constructors_hold_members_only() {
    for keyword in ["and", "or", "xor", "all", "some", "one", "loop"] {
        let text = root(&format!("loop({keyword}"));
        assert_eq!(counts(&text), at_last(5, &text, keyword));
        let text = root(&format!("one(v:2)({keyword}"));
        assert_eq!(counts(&text), at_last(5, &text, keyword));
        let text = root(&format!("or(leaf(a)leaf(b){keyword}"));
        assert_eq!(counts(&text), at_last(5, &text, keyword));
    }
    let text = root("xor(leaf(a))(1)");
    assert_eq!(counts(&text), at(5, &text, "))(1)").map_err(|(n, p)| (n, p + 1)));
    let text = root("loop(leaf(a)leaf(b))(1)");
    assert_eq!(counts(&text), at(5, &text, "leaf(b)"));
    assert_eq!(counts("flow(a,1)()"), Err((5, 10)));
}

#[test]
fn length_foreign_bytes_and_long_words() {
    let long = |length: usize| pad_between(T.as_bytes(), length);
    assert!(read(&long(TEXT_LIMIT)).is_ok());
    assert_eq!(read(&long(TEXT_LIMIT + 1)), Err((2, TEXT_LIMIT)));
    assert_eq!(read(&vec![0; TEXT_LIMIT + 1]), Err((2, TEXT_LIMIT)));
    assert_eq!(read(&vec![b' '; TEXT_LIMIT]), Err((5, TEXT_LIMIT)));
    assert_eq!(read(b"flow\t"), Err((3, 4)));
    assert_eq!(counts(&format!("{T}é")), Err((3, T.len())));
    let word = "a".repeat(25);
    assert_eq!(counts(&format!("){word})!")), Err((3, 27)));
    assert_eq!(counts(&format!("){word}){word}")), Err((4, 1)));
    assert_eq!(counts(&root(&format!("leaf({})(1)", &word[1..]))), Ok((1, 2)));
    for byte in 0..=255u8 {
        let allowed = byte.is_ascii_alphanumeric() || b"_(),: \n#".contains(&byte);
        assert_eq!(read(&[byte]) == Err((3, 0)), !allowed, "byte {byte}");
    }
}

#[test]
fn the_longest_drawing_is_read() {
    let text = longest_drawing();
    let blanks = text.iter().filter(|byte| byte.is_ascii_whitespace()).count();
    assert_eq!(text.len(), TEXT_LIMIT);
    assert!(blanks < 100, "{blanks} blanks");
    assert_eq!(read(&text).map(|summary| summary.nodes.len()), Ok(231));
}

#[test]
fn limit_of_nodes() {
    assert_eq!(counts(&root_with_leaves(255)), Ok((255, 256)));
    let text = root_with_leaves(256);
    assert_eq!(counts(&text), at_last(6, &text, "leaf"));
    // Off grammar at the same token is first, off grammar later is not.
    let full: String = (0..254).map(|at| format!("leaf(n{at})(0)")).collect();
    let text = format!("flow(root,1)({full}loop(loop");
    assert_eq!(counts(&text), at_last(5, &text, "loop"));
    let text = format!("flow(root,1)({full}loop(leaf)))");
    assert_eq!(counts(&text), at_last(6, &text, "leaf"));
    let text = format!("flow(root,1)({full}loop(");
    assert_eq!(counts(&text), Err((5, text.len())));
}

#[test]
fn limit_of_depth() {
    let text = nested_flows(11);
    assert_eq!(counts(&text), Ok((1, 12)));
    assert_eq!(read(text.as_bytes()).unwrap().nodes[11].depth, 12);
    let text = nested_flows(12);
    assert_eq!(counts(&text), at(6, &text, "leaf"));
    let text = nested_flows(13);
    assert_eq!(counts(&text), at(6, &text, "flow(f12"));
    let text = nested_flows(11).replace("leaf(a)", "xor(leaf(a)leaf(b))");
    assert_eq!(counts(&text), at(6, &text, "leaf(a)"));
    let text = nested_flows(11).replace("leaf(a)", "xor(xor");
    assert_eq!(counts(&text), at_last(5, &text, "xor"));
}

#[test]
fn names_twice() {
    let text = "flow(a,1)(leaf(b)(1)leaf(c)(0)leaf(c)(0)leaf(b)(0))";
    assert_eq!(counts(text), at_last(7, text, "c)(0)leaf(b)"));
    assert_eq!(counts("flow(a,1)( leaf( a)(1))"), Err((7, 17)));
    assert_eq!(counts("flow(a,1)(leaf(A)(1))"), Ok((1, 2)));
    // A par may be called like a leaf, and like the par of a replicator beside.
    assert_eq!(counts("flow(a,1)(all(a:2)(leaf(b))(0)one(a:2)(leaf(c))(1))"), Ok((4, 7)));
}

#[test]
fn parameters() {
    let text = "flow(a,v,1)(leaf(b)(1))";
    assert_eq!(counts(text), Err((8, 0)));
    let text = "flow(a,1)(one(v:2)(flow(b,1)(leaf(c)(1)))(1))";
    assert_eq!(counts(text), at(8, text, "flow(b"));
    let text = "flow(a,1)(one(v:2)(flow(b,v,1)(one(v:2)(leaf(c))(1)))(1))";
    assert_eq!(counts(text), at_last(8, text, "one"));
    let text = "flow(a,1)(one(v:2)(flow(b,v,1)(one(w:2)(flow(c,w,v,1)(leaf(d)(1)))(1)))(1))";
    assert_eq!(counts(text), at(8, text, "flow(c"));
    let text = "flow(a,1)(one(v:2)(flow(b,v,1)(leaf(c)(1)))(1)flow(d,v,1)(leaf(e)(1))(0))";
    assert_eq!(counts(text), at(8, text, "flow(d"));
}

#[test]
fn four_replicators_around() {
    let three = |inner: &str| {
        root(&format!(
            "one(v:2)(flow(b,v,1)(one(w:2)(flow(c,v,w,1)(one(x:2)(flow(d,v,w,x,1)({inner}))(1)))(1)))(1)"
        ))
    };
    assert_eq!(counts(&three("leaf(e)(1)")), Ok((8, 1 + 1 + 2 + 2 + 4 + 4 + 8 + 8)));
    // The fourth replicator has three around it; the leaf in it has four.
    let text = three("one(y:2)(leaf(e))(1)");
    assert_eq!(counts(&text), at(8, &text, "leaf(e)"));
    let text = three("one(w:2)(leaf(e))(1)");
    assert_eq!(counts(&text), at_last(8, &text, "one("));
}

#[test]
fn solid_children() {
    for child in ["leaf(b)", "flow(b,1)(leaf(c)(1))", "xor(leaf(b)leaf(c))", "one(v:2)(leaf(b))"] {
        assert!(counts(&root(&format!("{child}(1)"))).is_ok(), "{child}");
        assert_eq!(counts(&root(&format!("{child}(0)"))), Err((9, 0)), "{child}");
        assert_eq!(counts(&root(&format!("{child}(1)leaf(x)(1)"))), Err((9, 0)), "{child}");
    }
    let others =
        ["and(leaf(b)leaf(c))", "or(leaf(b)leaf(c))", "all(v:2)(leaf(b))", "some(v:2)(leaf(b))", "loop(leaf(b))"];
    for child in others {
        assert_eq!(counts(&root(&format!("{child}(1)"))), Err((9, 0)), "{child}");
        assert_eq!(counts(&root(&format!("{child}(1)leaf(x)(1)"))), Err((9, 0)), "{child}");
        assert!(counts(&root(&format!("{child}(0)leaf(x)(1)"))).is_ok(), "{child}");
    }
    let text = root("leaf(a)(1)flow(b,1)(leaf(c)(0))(0)flow(d,1)(leaf(e)(0))(0)");
    assert_eq!(counts(&text), at(9, &text, "flow(b"));
}

#[test]
fn weak_flows() {
    let text = "flow(a,1)(flow(b,0)(leaf(c)(1))(1)flow(d,0)(leaf(e)(1))(0))";
    assert_eq!(counts(text), at(10, text, "flow(b"));
    assert_eq!(counts(" flow(a,0)(flow(b,0)(leaf(c)(1))(1))"), Err((10, 1)));
    // The solid line goes before, even in a later flow.
    let text = "flow(a,0)(flow(b,1)(leaf(c)(0))(1))";
    assert_eq!(counts(text), at(9, text, "flow(b"));
}

#[test]
fn limits_of_copies_and_events() {
    assert_eq!(counts(&many_events(16)), Ok((512, 544)));
    assert_eq!(counts(&many_events(17)), Err((11, 0)));
    assert_eq!(counts(&many_copies(8)), Ok((23 * 16 + 8, 768)));
    assert_eq!(counts(&many_copies(9)), Err((11, 0)));
}

/// The tokens alone; a remark takes the rest of its line.
fn without_blanks_and_remarks(text: &[u8]) -> Vec<u8> {
    let lines = text.split(|byte| *byte == b'\n');
    let before_remarks = lines.flat_map(|line| line.iter().take_while(|byte| **byte != b'#'));
    before_remarks.copied().filter(|byte| *byte != b' ').collect()
}

#[test]
fn printing_takes_blanks_and_remarks_out() {
    assert_eq!(print(T.as_bytes(), TEXT_LIMIT), Ok(T.as_bytes().to_vec()));
    assert_eq!(print(T.as_bytes(), TEXT_LIMIT - 1), Err((1, 0)));
    assert_eq!(print(b"", 0), Err((1, 0)));
    assert_eq!(print(b"", TEXT_LIMIT), Err((5, 0)));
    assert_eq!(print(many_events(17).as_bytes(), TEXT_LIMIT), Err((11, 0)));
    let mut accepted = 0;
    for text in edge_texts().into_iter().chain((0..2000).map(random_text)) {
        match (read(&text), print(&text, TEXT_LIMIT)) {
            (Ok(mut summary), Ok(printed)) => {
                assert_eq!(printed, without_blanks_and_remarks(&text));
                // Each place is now less by what is taken out before it.
                let moved = |place: usize| without_blanks_and_remarks(&text[..place]).len();
                for node in &mut summary.nodes {
                    node.place = moved(node.place);
                    node.word_place = node.word_place.map(moved);
                }
                assert_eq!(read(&printed), Ok(summary));
                accepted += 1;
            }
            (read, printed) => assert_eq!(read.err(), printed.err()),
        }
    }
    assert!(accepted > 500, "only {accepted} texts were accepted");
}
