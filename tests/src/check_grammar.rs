//! 5 and 6 found a second time in another way. The grammar stands here as a
//! plain list of rules, and an Earley recognizer tells with which token the
//! last hope for a grammatical text goes. Nodes are counted by keywords, as no
//! name is one, and depths by open brackets, as a node has exactly one open
//! bracket for each node around it.

use crate::generate::{edge_texts, random_text};
use crate::{bit_value, cut, is_keyword, is_name, read, size_value, Refusal, Token};

/// Each line: what is explained, then one way to write it. Capitals name
/// other lines; NAME, BIT and SIZE are words of that sort.
const RULES: &[(&str, &str)] = &[
    ("Text", "Flow"),
    ("Flow", "flow ( Head , BIT ) ( Children )"),
    ("Head", "NAME"),
    ("Head", "Head , NAME"),
    ("Children", "Child ( BIT )"),
    ("Children", "Children Child ( BIT )"),
    ("Child", "Member"),
    ("Child", "loop ( Member )"),
    ("Child", "and ( Members )"),
    ("Child", "or ( Members )"),
    ("Child", "xor ( Members )"),
    ("Child", "all ( NAME : SIZE ) ( Member )"),
    ("Child", "some ( NAME : SIZE ) ( Member )"),
    ("Child", "one ( NAME : SIZE ) ( Member )"),
    ("Members", "Member Member"),
    ("Members", "Members Member"),
    ("Member", "leaf ( NAME )"),
    ("Member", "Flow"),
];

/// A rule read up to some part of it, begun at some token.
#[derive(Clone, Copy, PartialEq)]
struct Item {
    rule: usize,
    done: usize,
    begun: usize,
}

fn parts(rule: usize) -> Vec<&'static str> {
    RULES[rule].1.split(' ').collect()
}

fn wanted(item: Item) -> Option<&'static str> {
    parts(item.rule).get(item.done).copied()
}

fn is_rule(part: &str) -> bool {
    RULES.iter().any(|(name, _)| *name == part)
}

fn fits(part: &str, word: &str) -> bool {
    match part {
        "NAME" => is_name(word),
        "BIT" => bit_value(word).is_some(),
        "SIZE" => size_value(word).is_some(),
        _ => part == word && !is_rule(part),
    }
}

fn add(items: &mut Vec<Item>, item: Item) {
    if !items.contains(&item) {
        items.push(item);
    }
}

fn moved_on(item: Item) -> Item {
    Item { done: item.done + 1, ..item }
}

/// Adds all that follows without a further token. No rule is empty.
fn close(sets: &[Vec<Item>], items: &mut Vec<Item>) {
    let mut at = 0;
    while at < items.len() {
        let item = items[at];
        match wanted(item) {
            Some(part) if is_rule(part) => {
                for rule in (0..RULES.len()).filter(|&rule| RULES[rule].0 == part) {
                    add(items, Item { rule, done: 0, begun: sets.len() });
                }
            }
            Some(_) => {}
            None => {
                let name = RULES[item.rule].0;
                for &outer in sets[item.begun].iter().filter(|&&outer| wanted(outer) == Some(name)) {
                    add(items, moved_on(outer));
                }
            }
        }
        at += 1;
    }
}

/// Where a text is off grammar, if it is.
fn off_grammar(tokens: &[Token], text_len: usize) -> Option<usize> {
    let mut items = vec![Item { rule: 0, done: 0, begun: 0 }];
    let mut sets = Vec::new();
    close(&sets, &mut items);
    for token in tokens {
        sets.push(items);
        let before = &sets[sets.len() - 1];
        let fitting = before.iter().filter(|&&item| wanted(item).is_some_and(|part| fits(part, token.word)));
        items = fitting.map(|&item| moved_on(item)).collect();
        if items.is_empty() {
            return Some(token.place);
        }
        close(&sets, &mut items);
    }
    let whole = Item { rule: 0, done: 1, begun: 0 };
    (!items.contains(&whole)).then_some(text_len)
}

/// The first keyword that is the 257th or has twelve open brackets.
fn too_big(tokens: &[Token]) -> Option<usize> {
    let (mut nodes, mut open) = (0, 0);
    for token in tokens {
        match token.word {
            "(" => open += 1,
            ")" => open -= 1,
            word if is_keyword(word) => {
                nodes += 1;
                if nodes == 257 || open == 12 {
                    return Some(token.place);
                }
            }
            _ => {}
        }
    }
    None
}

/// The refusal by 5 or 6 of a text that passes 2, 3 and 4.
fn five_or_six(text: &[u8]) -> Option<Refusal> {
    let tokens = cut(text);
    match (off_grammar(&tokens, text.len()), too_big(&tokens)) {
        (Some(five), Some(six)) if six < five => Some((6, six)),
        (Some(five), _) => Some((5, five)),
        (None, Some(six)) => Some((6, six)),
        (None, None) => None,
    }
}

#[test]
fn five_and_six_agree_with_the_list_of_rules() {
    let texts = edge_texts().into_iter().chain((0..3000).map(|seed| random_text(seed + 77_000)));
    let mut seen = [0; 3];
    for text in texts {
        let read = read(&text);
        let refusal = read.err();
        if matches!(refusal, Some((2..=4, _))) {
            continue;
        }
        let expected = five_or_six(&text);
        let told = refusal.filter(|(number, _)| *number == 5 || *number == 6);
        assert_eq!(told, expected, "b\"{}\"", text.escape_ascii());
        seen[told.map_or(0, |(number, _)| usize::from(number) - 4)] += 1;
    }
    assert!(seen.iter().all(|&count| count > 100), "grammatical, 5 and 6: {seen:?}");
}
