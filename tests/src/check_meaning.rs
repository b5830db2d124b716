//! The reference's meaning of drawings, on document 01's drawings and slips, card
//! 1 of document 02 in force, and held against a second one that lists whole runs
//! one by one.

use crate::drawings::{accepted_text, all_nestings, nestings, Size};
use crate::generate::{
    edge_texts, every_constructor, many_copies, many_events, random_text, root, root_with_leaves, Random, T, U,
};
use crate::meaning::{Book, Diagram, Event, FINISHED, NOT_FINISHED, NOT_NOW, NO_EVENT, TAKEN};
use crate::{accept, read, Group, Node, Replicator, Shape};
use std::collections::BTreeSet;

fn diagram(text: &str) -> Diagram {
    Diagram::of(text.as_bytes()).expect("the text is accepted")
}

/// Takes these events one after the other; all but the last must be taken.
/// Tells the last answer.
fn play<'d>(diagram: &'d Diagram, events: &[u64]) -> (Book<'d>, u8) {
    let mut book = Book::new(diagram);
    let (last, before) = events.split_last().expect("there is an event");
    for event in before {
        assert_eq!(book.step(*event), TAKEN, "event {event} of {events:?}");
    }
    let answer = book.step(*last);
    (book, answer)
}

fn assert_whole(text: &str, events: &[usize]) {
    let diagram = diagram(text);
    assert!(diagram.begins(events) && diagram.whole(events), "{events:?}");
    let numbers: Vec<u64> = events.iter().map(|&event| event as u64).collect();
    let (book, answer) = play(&diagram, &numbers);
    assert_eq!((answer, book.finished()), (TAKEN, FINISHED), "{events:?}");
}

/// The last of these events is turned away, those before are not.
fn assert_turned_away(text: &str, events: &[usize]) {
    let diagram = diagram(text);
    assert!(diagram.begins(&events[..events.len() - 1]), "{events:?}");
    assert!(!diagram.begins(events) && !diagram.whole(events), "{events:?}");
    let numbers: Vec<u64> = events.iter().map(|&event| event as u64).collect();
    let (book, answer) = play(&diagram, &numbers);
    assert_eq!(answer, NOT_NOW, "{events:?}");
    assert_eq!(book.taken(), &events[..events.len() - 1]);
}

/// All events are taken; the first byte of the record is this, the rest 0.
fn assert_first_byte(text: &str, events: &[u64], byte: u8) {
    let diagram = diagram(text);
    let (book, answer) = play(&diagram, events);
    let mut record = [0; 64];
    record[0] = byte;
    assert_eq!((answer, book.record()), (TAKEN, record), "{events:?}");
}

fn names(text: &str) -> Vec<String> {
    diagram(text).events.into_iter().map(|event| event.name).collect()
}

// ---------------------------------------------------------------------------
// Drawings worked through
// ---------------------------------------------------------------------------

#[test]
fn drawing_t() {
    assert_whole(T, &[0, 2, 4]);
    assert_whole(T, &[0, 1, 1, 3, 4]);
    assert_turned_away(T, &[0, 2, 3]);
    assert_turned_away(T, &[0, 2, 4, 4]);
    assert_turned_away(T, &[0, 2, 1]);
}

#[test]
fn drawing_u() {
    let events = [("a", false), ("b", false), ("r", true), ("c", false)];
    let seen: Vec<_> = diagram(U).events.into_iter().map(|event| (event.name, event.reset)).collect();
    assert_eq!(seen, events.map(|(name, reset)| (name.to_string(), reset)));
    assert_whole(U, &[3]);
    assert_whole(U, &[0, 1, 2, 3]);
    assert_whole(U, &[0, 1, 3]);
    assert_turned_away(U, &[0, 3]);
    assert_first_byte(U, &[0, 1], 192);
    assert_first_byte(U, &[0, 1, 2], 32);
    assert_first_byte(U, &[0, 1, 2, 3], 48);
}

#[test]
fn the_last_round_goes_straight_on() {
    assert_whole(U, &[0, 1, 2, 0, 1, 3]);
    assert_whole(U, &[0, 1, 2, 0, 1, 2, 3]);
    assert_first_byte(U, &[0, 1, 3], 208);
    assert_first_byte(U, &[0, 1, 2, 0, 1, 3], 240);
    // The reset does not come after the successor, nor twice, nor halfway.
    assert_turned_away(U, &[0, 1, 3, 2]);
    assert_turned_away(U, &[0, 1, 3, 0]);
    assert_turned_away(U, &[0, 1, 2, 2]);
    assert_turned_away(U, &[0, 2]);
    assert_turned_away(U, &[0, 1, 2, 0, 3]);
    // Every further round needs the reset of the one before.
    assert_turned_away(U, &[0, 1, 0]);
    let last = "flow(q,1)(leaf(c)(1)loop(flow(r,1)(leaf(a)(0)leaf(b)(1)))(0))";
    assert_eq!(names(last), ["c", "a", "b", "r"]);
    for whole in [&[0][..], &[0, 1, 2], &[0, 1, 2, 3], &[0, 1, 2, 3, 1, 2]] {
        assert_whole(last, whole);
    }
    assert!(!diagram(last).whole(&[0, 1]) && !diagram(last).whole(&[0, 1, 2, 3, 1]));
}

#[test]
fn the_last_round_inside_other_constructors() {
    let xor = root("xor(flow(p,1)(loop(flow(r,1)(leaf(a)(1)))(0)leaf(b)(1))leaf(c))(1)");
    assert_whole(&xor, &[0, 2]);
    assert_turned_away(&xor, &[0, 2, 1]);
    let or = root("or(flow(s,1)(leaf(a)(1)loop(flow(r,1)(leaf(b)(0)leaf(c)(1)))(0))leaf(d))(0)leaf(e)(1)");
    assert_eq!(names(&or), ["a", "b", "c", "r", "d", "e"]);
    assert_whole(&or, &[4, 0, 1, 2, 5]);
    assert_whole(&or, &[0, 1, 2, 3, 4, 5]);
    assert_turned_away(&or, &[4, 0, 1, 5]);
    assert_turned_away(&or, &[4, 0, 1, 2, 5, 3]);
    let inner = root("loop(flow(o,1)(loop(flow(i,1)(leaf(a)(1)))(0)leaf(b)(1)))(0)leaf(c)(1)");
    assert_whole(&inner, &[0, 2, 4]);
    assert_whole(&inner, &[0, 2, 3, 0, 1, 2, 4]);
    assert_first_byte(&inner, &[0, 2, 3], 0b0001_0000);
    assert_turned_away(&inner, &[0, 2, 1]);
}

#[test]
fn numbers_past_the_events() {
    let drawing = diagram(U);
    for event in [4, 5, 511, 512, 65_536, 1 << 32, (1 << 32) + 3, 1 << 63, u64::MAX] {
        let (book, answer) = play(&drawing, &[0, event]);
        assert_eq!((answer, book.record()[0]), (NO_EVENT, 128), "{event}");
    }
    assert!(!drawing.begins(&[4]) && !drawing.whole(&[3, 4]));
}

#[test]
fn large_drawings_are_counted_and_played_to_the_end() {
    let sizes = [
        (root_with_leaves(255), 255, 256),
        (many_events(16), 512, 544),
        (many_copies(8), 376, 768),
    ];
    for (text, events, copies) in sizes {
        let drawing = diagram(&text);
        assert_eq!((drawing.events.len(), drawing.copies), (events, copies));
        let mut book = Book::new(&drawing);
        // The last of the events that may come next leads to the end.
        while let Some(event) = book.next().last() {
            assert_eq!(book.finished(), NOT_FINISHED);
            assert_eq!(book.step(*event as u64), TAKEN);
        }
        assert_eq!((book.taken().len(), book.finished()), (events, FINISHED));
        let set = book.record().iter().map(|byte| byte.count_ones() as usize).sum::<usize>();
        assert_eq!(set, events);
    }
}

#[test]
fn counts_are_those_of_reading() {
    let mut accepted = 0;
    for text in edge_texts().into_iter().chain((0..1500).map(random_text)) {
        match (read(&text), Diagram::of(&text)) {
            (Ok(summary), Ok(diagram)) => {
                assert_eq!((diagram.events.len(), diagram.copies), (summary.events, summary.copies));
                assert_eq!(diagram.root.events, 0..summary.events);
                accepted += 1;
            }
            (summary, diagram) => assert_eq!(summary.err(), diagram.err()),
        }
    }
    assert!(accepted > 500, "only {accepted} texts were accepted");
}

#[test]
fn record_bits_of_every_event() {
    let drawing = diagram(&root_with_leaves(255));
    let mut book = Book::new(&drawing);
    for event in 0..255 {
        let mut wanted = book.record();
        wanted[event / 8] |= 128 >> (event % 8);
        assert_eq!(book.step(event as u64), TAKEN);
        assert_eq!(book.record(), wanted);
    }
}

// ---------------------------------------------------------------------------
// Slips
// ---------------------------------------------------------------------------

#[test]
fn a_loop_after_its_reset_has_begun() {
    let text = root("xor(flow(p,1)(loop(flow(r,1)(leaf(a)(1)))(0)leaf(b)(1))leaf(c))(1)");
    assert_eq!(names(&text), ["a", "r", "b", "c"]);
    assert_turned_away(&text, &[0, 1, 3]);
    assert_turned_away(&text, &[0, 3]);
    assert_whole(&text, &[0, 1, 2]);
    assert_whole(&text, &[0, 1, 0, 1, 2]);
    assert_whole(&text, &[3]);
    assert_turned_away(&text, &[3, 0]);
}

#[test]
fn an_or_with_a_member_halfway_is_not_complete() {
    let text = root("or(flow(p,1)(leaf(a)(0)leaf(b)(1))leaf(c))(0)leaf(d)(1)");
    assert_eq!(names(&text), ["a", "b", "c", "d"]);
    assert_turned_away(&text, &[2, 0, 3]);
    assert_whole(&text, &[2, 0, 1, 3]);
    assert_whole(&text, &[2, 3]);
    assert_whole(&text, &[0, 2, 1, 3]);
    let last = "flow(q,1)(leaf(d)(1)or(flow(p,1)(leaf(a)(0)leaf(b)(1))leaf(c))(0))";
    assert_eq!(names(last), ["d", "a", "b", "c"]);
    assert!(diagram(last).whole(&[0, 3]) && diagram(last).whole(&[0, 3, 1, 2]));
    assert!(!diagram(last).whole(&[0, 3, 1]) && !diagram(last).whole(&[0, 1, 3]));
}

#[test]
fn an_or_member_does_not_start_after_the_successor() {
    let text = root("or(leaf(a)leaf(b))(0)leaf(c)(1)");
    assert_turned_away(&text, &[0, 2, 1]);
    assert_turned_away(&text, &[2]);
    assert_whole(&text, &[0, 1, 2]);
    assert_whole(&text, &[1, 0, 2]);
    let text = root("some(v:3)(leaf(a))(0)loop(leaf(b))(0)leaf(c)(1)");
    assert_turned_away(&text, &[1, 3, 0]);
    assert_turned_away(&text, &[1, 1]);
    assert_whole(&text, &[2, 0, 3, 3, 4]);
}

#[test]
fn an_outer_reset_clears_the_inner_reset() {
    let text = root("loop(flow(o,1)(loop(flow(i,1)(leaf(a)(1)))(0)leaf(b)(1)))(0)leaf(c)(1)");
    assert_eq!(names(&text), ["a", "i", "b", "o", "c"]);
    assert_first_byte(&text, &[0, 1], 0b0100_0000);
    assert_first_byte(&text, &[0, 1, 0], 0b1100_0000);
    assert_first_byte(&text, &[0, 1, 2], 0b0110_0000);
    assert_first_byte(&text, &[0, 1, 2, 3], 0b0001_0000);
    assert_first_byte(&text, &[0, 1, 2, 3, 0], 0b1001_0000);
    assert_first_byte(&text, &[0, 1, 2, 3, 2, 3, 4], 0b0001_1000);
    assert_whole(&text, &[0, 1, 2, 3, 2, 3, 4]);
    // In the next round the other branch of an xor is open again.
    let text = root(
        "loop(flow(o,1)(xor(flow(p,1)(loop(flow(i,1)(leaf(a)(1)))(0)leaf(b)(1))leaf(d))(1)))(0)leaf(c)(1)",
    );
    assert_eq!(names(&text), ["a", "i", "b", "d", "o", "c"]);
    assert_turned_away(&text, &[0, 1, 3]);
    assert_whole(&text, &[0, 1, 2, 4, 3, 4, 5]);
}

// ---------------------------------------------------------------------------
// A second meaning: all whole runs up to a length, one by one
// ---------------------------------------------------------------------------

type Lists = BTreeSet<Vec<usize>>;

/// More whole runs than this are not listed.
const MOST_LISTS: usize = 3000;

/// Lists whole runs of up to `longest` events, sentence by sentence. Events
/// are looked up by name, values and reset mark, so that numbering and copies
/// are not those of the first meaning. None where there are too many.
struct Lister<'e> {
    events: &'e [Event],
    longest: usize,
}

impl Lister<'_> {
    fn number(&self, name: &str, values: &[usize], reset: bool) -> usize {
        let is_it = |event: &Event| event.name == name && event.values == values && event.reset == reset;
        self.events.iter().position(is_it).expect("the event is known")
    }

    fn runs(&self, node: &Node, values: &[usize]) -> Option<Lists> {
        let one = |node: &Node| self.runs(node, values);
        let of_each = |nodes: &[Node]| nodes.iter().map(one).collect::<Option<Vec<_>>>();
        match &node.shape {
            Shape::Leaf { name } => Some(Lists::from([vec![self.number(&name.word, values, false)]])),
            Shape::Flow { children, .. } => of_each(children)?
                .iter()
                .try_fold(Lists::from([vec![]]), |before, child| self.one_after_the_other(&before, child)),
            Shape::Group { rule: Group::And, members } => self.interleaved(&of_each(members)?),
            Shape::Group { rule: Group::Or, members } => self.nonempty_choices(&of_each(members)?),
            Shape::Group { rule: Group::Xor, members } => Some(of_each(members)?.concat_all()),
            Shape::Replicator { rule, size, body, .. } => {
                let copy = |value: usize| self.runs(body, &[values, &[value]].concat());
                let copies = (0..*size).map(copy).collect::<Option<Vec<_>>>()?;
                match rule {
                    Replicator::All => self.interleaved(&copies),
                    Replicator::Some => self.nonempty_choices(&copies),
                    Replicator::One => Some(copies.concat_all()),
                }
            }
            Shape::Loop { body } => self.rounds(body, values),
        }
    }

    /// A loop over a leaf: that event any number of times. A loop over a flow:
    /// rounds, each ended by its reset, then optionally one further run.
    fn rounds(&self, body: &Node, values: &[usize]) -> Option<Lists> {
        let run = self.runs(body, values)?;
        let Shape::Flow { name, .. } = &body.shape else {
            return self.any_number(&run);
        };
        let reset = Lists::from([vec![self.number(&name.word, values, true)]]);
        let rounds = self.any_number(&self.one_after_the_other(&run, &reset)?)?;
        let mut further = run;
        further.insert(vec![]);
        self.one_after_the_other(&rounds, &further)
    }

    fn any_number(&self, of: &Lists) -> Option<Lists> {
        let mut lists = Lists::from([vec![]]);
        loop {
            let mut more = self.one_after_the_other(&lists, of)?;
            more.extend(lists.iter().cloned());
            if more.len() == lists.len() {
                return Some(lists);
            }
            lists = more;
        }
    }

    fn one_after_the_other(&self, first: &Lists, then: &Lists) -> Option<Lists> {
        let mut lists = Lists::new();
        for (start, end) in first.iter().flat_map(|start| then.iter().map(move |end| (start, end))) {
            if start.len() + end.len() <= self.longest {
                lists.insert([start.as_slice(), end].concat());
            }
            if lists.len() > MOST_LISTS {
                return None;
            }
        }
        Some(lists)
    }

    fn interleaved(&self, members: &[Lists]) -> Option<Lists> {
        members.iter().try_fold(Lists::from([vec![]]), |before, member| self.interleaved_two(&before, member))
    }

    fn interleaved_two(&self, left: &Lists, right: &Lists) -> Option<Lists> {
        let mut lists = Lists::new();
        for (one, other) in left.iter().flat_map(|one| right.iter().map(move |other| (one, other))) {
            if one.len() + other.len() <= self.longest {
                add_interleavings(one, other, &mut Vec::new(), &mut lists);
            }
            if lists.len() > MOST_LISTS {
                return None;
            }
        }
        Some(lists)
    }

    fn nonempty_choices(&self, members: &[Lists]) -> Option<Lists> {
        let mut lists = Lists::new();
        for chosen in 1..1usize << members.len() {
            let is_chosen = |at: &usize| chosen >> at & 1 == 1;
            let choice: Vec<Lists> = (0..members.len()).filter(is_chosen).map(|at| members[at].clone()).collect();
            lists.extend(self.interleaved(&choice)?);
        }
        (lists.len() <= MOST_LISTS).then_some(lists)
    }
}

trait ConcatAll {
    fn concat_all(self) -> Lists;
}

impl ConcatAll for Vec<Lists> {
    fn concat_all(self) -> Lists {
        self.into_iter().flatten().collect()
    }
}

fn add_interleavings(one: &[usize], other: &[usize], before: &mut Vec<usize>, lists: &mut Lists) {
    if one.is_empty() || other.is_empty() {
        lists.insert([before, one, other].concat());
        return;
    }
    for (first, one_left, other_left) in [(one[0], &one[1..], other), (other[0], one, &other[1..])] {
        before.push(first);
        add_interleavings(one_left, other_left, before, lists);
        before.pop();
    }
}

/// How long the lists are that are tried without exception, by the number of
/// events.
fn tried_length(events: usize) -> usize {
    [0, 9, 8, 7, 6, 5, 4, 4, 4][events]
}

/// Both meanings of a drawing. The lists are exact for `whole` up to the
/// length of the longest of them; for `begun` only up to `exact`.
struct Both<'t> {
    text: &'t [u8],
    diagram: &'t Diagram,
    whole: Lists,
    begun: Lists,
    exact: usize,
}

impl Both<'_> {
    /// None if there are too many whole runs.
    fn of<'t>(text: &'t [u8], diagram: &'t Diagram, exact: usize) -> Option<Both<'t>> {
        // From wherever it is, a run can be ended without any event twice: what
        // was begun is brought to its end and nothing else is begun once more.
        let longest = exact + diagram.events.len();
        let lister = Lister { events: &diagram.events, longest };
        let whole = lister.runs(&accept(text).expect("the text is accepted"), &[])?;
        let begun = whole.iter().flat_map(|list| (0..=list.len()).map(|end| list[..end].to_vec())).collect();
        Some(Both { text, diagram, whole, begun, exact })
    }

    /// Tells whether the list begins a whole run.
    fn compare(&self, list: &[usize]) -> bool {
        let shown = || format!("{list:?} of b\"{}\"", self.text.escape_ascii());
        let begins = self.begun.contains(list);
        assert_eq!(self.diagram.begins(list), begins, "begins: {}", shown());
        assert_eq!(self.diagram.whole(list), self.whole.contains(list), "whole: {}", shown());
        begins
    }

    /// All lists up to a length.
    fn compare_all(&self, longest: usize) -> usize {
        let mut list = Vec::new();
        let mut lists = 0;
        loop {
            lists += 1;
            self.compare(&list);
            if !move_on(&mut list, self.diagram.events.len(), longest) {
                return lists;
            }
        }
    }

    /// All longer lists that begin a whole run, each followed by any event.
    fn compare_begun(&self, list: &mut Vec<usize>) -> usize {
        if !self.compare(list) || list.len() == self.exact {
            return 1;
        }
        let mut lists = 1;
        for event in 0..self.diagram.events.len() {
            list.push(event);
            lists += self.compare_begun(list);
            list.pop();
        }
        lists
    }
}

/// Compares the two meanings of a drawing; tells on how many lists, none if
/// there are too many whole runs. Where there are not, lists are followed to
/// the end of a whole run that has each event, and two events on.
fn compare(text: &[u8]) -> Option<usize> {
    let diagram = Diagram::of(text).expect("the text is accepted");
    let events = diagram.events.len();
    let tried = tried_length(events);
    let both = Both::of(text, &diagram, tried.max(events + 2)).or_else(|| Both::of(text, &diagram, tried))?;
    Some(both.compare_all(tried) + both.compare_begun(&mut Vec::new()))
}

/// The next list in dictionary order of up to `longest` numbers below `end`.
fn move_on(list: &mut Vec<usize>, end: usize, longest: usize) -> bool {
    if list.len() < longest {
        list.push(0);
        return true;
    }
    while let Some(last) = list.pop() {
        if last + 1 < end {
            list.push(last + 1);
            return true;
        }
    }
    false
}

/// A small drawing, three times of four with a constructor inside another.
fn small_drawing(seed: u64) -> Vec<u8> {
    let random = &mut Random::new(seed);
    let size = Size::Small(random.within(1, 8));
    let nested = Size::Small(random.within(6, 8));
    if seed.is_multiple_of(4) {
        return accepted_text(size, random);
    }
    loop {
        let text = accepted_text(nested, random);
        if !nestings(&read(&text).expect("the text is accepted").nodes).is_empty() {
            return text;
        }
    }
}

#[test]
fn derivatives_agree_with_lists_of_whole_runs() {
    let (mut drawings, mut lists, mut left_out) = (0, 0, 0);
    let mut nested = Vec::new();
    for text in (0..800).map(small_drawing) {
        match compare(&text) {
            Some(compared) => {
                drawings += 1;
                lists += compared;
                nested.extend(nestings(&read(&text).expect("the text is accepted").nodes));
            }
            None => left_out += 1,
        }
    }
    println!("{drawings} drawings, {lists} lists of events; {left_out} drawings with too many runs");
    assert!(drawings > 600, "only {drawings} drawings were compared");
    for nesting in all_nestings() {
        assert!(nested.contains(&nesting), "no drawing had {nesting}");
    }
}

#[test]
fn t_u_and_the_slips_agree_with_lists_of_whole_runs() {
    for text in [
        T.to_string(),
        U.to_string(),
        root("xor(flow(p,1)(loop(flow(r,1)(leaf(a)(1)))(0)leaf(b)(1))leaf(c))(1)"),
        root("or(flow(p,1)(leaf(a)(0)leaf(b)(1))leaf(c))(0)leaf(d)(1)"),
        root("some(v:3)(leaf(a))(0)loop(leaf(b))(0)leaf(c)(1)"),
        root("loop(flow(o,1)(loop(flow(i,1)(leaf(a)(1)))(0)leaf(b)(1)))(0)leaf(c)(1)"),
        root("all(v:2)(flow(f,v,1)(one(w:2)(leaf(a))(1)))(0)leaf(c)(1)"),
        root("or(flow(f,1)(loop(leaf(a))(0)leaf(b)(1))flow(g,1)(leaf(c)(1)loop(leaf(d))(0)))(0)leaf(e)(1)"),
    ] {
        assert!(compare(text.as_bytes()).is_some(), "{text}");
    }
}

// ---------------------------------------------------------------------------
// The book on larger drawings
// ---------------------------------------------------------------------------

/// The record said once more, from the list of taken events alone.
fn record_of(diagram: &Diagram, taken: &[usize]) -> [u8; 64] {
    let mut bits = [false; 512];
    for &event in taken {
        bits[diagram.events[event].cleared.clone()].fill(false);
        bits[event] = true;
    }
    let mut bytes = [0; 64];
    for (byte, eight) in bytes.iter_mut().zip(bits.chunks(8)) {
        *byte = eight.iter().fold(0, |byte, &bit| byte * 2 + u8::from(bit));
    }
    bytes
}

/// The events that may come next are those with which the list still begins
/// a whole run; the record is that of the list; expressions stay small.
#[test]
fn the_book_agrees_with_its_list() {
    let mut finished = 0;
    for seed in 0..60 {
        let random = &mut Random::new(seed);
        let size = *random.pick(&[Size::Small(12), Size::Middle, Size::Deep, Size::Full]);
        let diagram = Diagram::of(&accepted_text(size, random)).expect("the text is accepted");
        let mut book = Book::new(&diagram);
        for at in 0..300 {
            let next = book.next();
            if at % 40 == 0 || next.is_empty() {
                let may_come = |event: &usize| diagram.begins(&[book.taken(), &[*event]].concat());
                assert_eq!(next, (0..diagram.events.len()).filter(may_come).collect::<Vec<_>>());
                assert_eq!(book.record(), record_of(&diagram, book.taken()));
                assert_eq!(book.finished() == FINISHED, diagram.whole(book.taken()));
            }
            finished += usize::from(book.finished() == FINISHED);
            if next.is_empty() {
                break;
            }
            assert_eq!(book.step(*random.pick(&next) as u64), TAKEN);
            let (left, whole) = book.forms();
            assert!(left <= 4 * whole + 4, "{left} forms of once {whole}");
        }
    }
    assert!(finished > 20, "only {finished} times finished");
}

#[test]
fn every_constructor_is_played() {
    let drawing = diagram(&every_constructor());
    let mut book = Book::new(&drawing);
    let random = &mut Random::new(5);
    while book.finished() == NOT_FINISHED {
        let next = book.next();
        assert_eq!(book.step(*random.pick(&next) as u64), TAKEN);
    }
    assert!(drawing.whole(book.taken()));
}
