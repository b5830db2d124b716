//! The page against the reference, and what it must have.

use super::answers::Reference;
use super::example::{Example, NUMBERS};
use super::grammar::Grammar;
use super::held::difference;
use super::page::{blocks, page, Block};
use reference::generate::edge_texts;
use reference::read;

/// Longer texts are left to the others: deriving goes over the tokens again and
/// again.
const LONGEST: usize = 600;

/// Every block of a page but its grammar, as an example.
pub fn examples(page: &str) -> Result<Vec<(Block<'_>, Example)>, String> {
    let mut examples = Vec::new();
    for block in blocks(page)? {
        match block.kind {
            "" => {
                let example = Example::of(&block).map_err(|why| format!("the block in line {}: {why}", block.at))?;
                examples.push((block, example));
            }
            "ebnf" => {}
            kind => return Err(format!("the block in line {}: no example, and {kind} is not known", block.at)),
        }
    }
    Ok(examples)
}

pub fn grammar(page: &str) -> Grammar {
    let blocks = blocks(page).unwrap();
    let grammars: Vec<&Block> = blocks.iter().filter(|block| block.kind == "ebnf").collect();
    assert_eq!(grammars.len(), 1, "there is one grammar");
    Grammar::of(grammars[0])
}

#[test]
fn the_reference_answers_what_the_page_states() {
    let page = page();
    for (block, example) in examples(&page).unwrap() {
        if let Some(difference) = difference(&example, &Reference) {
            panic!("docs/LANGUAGE.md, the block in line {}: {difference}", block.at);
        }
    }
}

/// Under the heading of each number an example is turned away with it.
#[test]
fn every_number_has_an_example() {
    let page = page();
    let examples = examples(&page).unwrap();
    for number in NUMBERS {
        let is_its_own = |(block, example): &(Block, Example)| {
            block.heading.starts_with(&format!("{number}: ")) && example.numbers().contains(&number)
        };
        assert!(examples.iter().any(is_its_own), "no example of number {number} under a heading '{number}: ..'");
    }
}

/// A mark under a text stands at the place of the refusal.
#[test]
fn marks_stand_at_their_places() {
    let page = page();
    let mut marked = 0;
    for (block, example) in examples(&page).unwrap() {
        let Example::Drawing(drawing) = example else { continue };
        if let Some(mark) = drawing.mark {
            let place = drawing.refusal().map(|(_, place)| place);
            assert_eq!(place, Some(mark), "docs/LANGUAGE.md, the block in line {}", block.at);
            marked += 1;
        }
    }
    assert!(marked >= 15, "only {marked} marks");
}

/// The grammar derives a text exactly if it is not turned away with 5. Where 6
/// comes first, what stands after it is not looked at.
#[test]
fn the_grammar_is_the_one_that_is_read() {
    let page = page();
    let grammar = grammar(&page);
    assert_eq!(grammar.keywords(), ["all", "and", "flow", "leaf", "loop", "one", "or", "some", "xor"]);
    let shown = examples(&page).unwrap().into_iter().filter_map(|(_, example)| match example {
        Example::Drawing(drawing) => Some(drawing.text),
        Example::Table(_) => None,
    });
    let (mut derived, mut off) = (0, 0);
    for text in shown.chain(edge_texts()).filter(|text| text.len() <= LONGEST) {
        let answer = read(&text);
        let (Ok(_) | Err((5 | 7..=11, _))) = answer else { continue };
        let derives = grammar.derives(std::str::from_utf8(&text).expect("no byte is foreign"));
        assert_eq!(derives, !matches!(answer, Err((5, _))), "b\"{}\"", text.escape_ascii());
        *(if derives { &mut derived } else { &mut off }) += 1;
    }
    assert!(derived >= 100 && off >= 1000, "{derived} texts derived, {off} not");
}

// ---------------------------------------------------------------------------
// Pages that are wrong
// ---------------------------------------------------------------------------

/// What is wrong with a page that has only this block.
fn wrong(block: &str) -> Option<String> {
    let page = format!("# A page\n\n```\n{block}\n```\n");
    match examples(&page) {
        Ok(examples) => examples.iter().find_map(|(_, example)| difference(example, &Reference)),
        Err(why) => Some(why),
    }
}

#[test]
fn damaged_blocks_are_noticed() {
    let drawing = "flow(t,1)(loop(flow(r,1)(leaf(a)(0)leaf(b)(1)))(0)leaf(c)(1))";
    let table = "table =\n  00 01 00 01  # E 1, R 1\n  00 00 00 00  # event 0: guard row 0, first 0, count 0\n  \
                 00 00 00 00  # row 0: kind 0, left 0, right 0\nrecord = 00*64";
    let right = [
        format!("{drawing}\n-> events 4 copies 6\n-> ..\na, b, reset r, c -> whole\nrecord after a, b -> C0 00*63"),
        format!("{drawing}\nevents::name 2 -> r\nevents::values 2 -> reset"),
        format!("{drawing}\nprinter::print into 16384 bytes -> {drawing}"),
        format!("{drawing}\neventb::event 2 into 65536 bytes -> done\neventb::event 4 into 65536 bytes -> refused 14 0"),
        format!("{table}\nadl_step 0 -> 15\nrecord -> 00*64\nadl_finished -> 0"),
        format!("{table}\nadl_offer into 64 bytes -> 0\noffer -> 00*64"),
    ];
    for block in right {
        assert_eq!(wrong(&block), None, "{block}");
    }
    let damaged = [
        drawing.to_string(),
        format!("{drawing}\n-> events 4 copies 6"),
        format!("{drawing}\n-> events 5 copies 6\n-> .."),
        format!("{drawing}\na, c -> whole"),
        format!("{drawing}\na, b, c -> begins"),
        format!("{drawing}\na, b -> whole"),
        format!("{drawing}\na, c, c -> turned away at c"),
        format!("{drawing}\nx -> turned away at x"),
        format!("{drawing}\na, b, c -> turned away at b"),
        format!("{drawing}\nrecord after a, b -> C1 00*63"),
        format!("{drawing}\nrecord after a, b -> C0 00*62"),
        format!("{drawing}\nevents::name 2 -> reset r"),
        format!("{drawing}\nevents::size 2 -> 1"),
        format!("{drawing}\nprinter::print into 16383 bytes -> {drawing}"),
        format!("{drawing}\neventb::event 2 into 65535 bytes -> done"),
        format!("{drawing}\neventb::event 2 -> done"),
        format!("{drawing}\na -> begins\nand a remark"),
        format!("{drawing}{{ }}*x\na -> begins"),
        format!("{drawing}\n  ^\n  ^ here\n-> refused 5 2"),
        format!("{table}\nadl_step 0 -> 0"),
        format!("{table}\nadl_step 1 -> 15"),
        format!("{table}\nrecord -> 01 00*63"),
        format!("{table}\nadl_offer into 64 bytes -> 0\noffer -> 80 00*63"),
        format!("{table}\nadl_start -> 0"),
        table.replace("row 0: kind 0", "row 0: kind 1"),
        "target/bin/listing < drawings/trip.adl".to_string(),
    ];
    for block in damaged {
        assert!(wrong(&block).is_some(), "not noticed:\n{block}");
    }
    for outside in ["Write `flow(t,1)(leaf(a)(1))`.", "    take, send -> begins", "```sh\nls\n```"] {
        assert!(examples(&format!("# A page\n\n{outside}\n")).is_err(), "not noticed: {outside}");
    }
}
