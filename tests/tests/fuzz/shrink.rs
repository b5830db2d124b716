//! A failing case made smaller as long as it still fails: texts by nodes,
//! tokens and bytes, lists by their items, tables by damage, rows and events,
//! records by bits, numbers towards 0.

use crate::case::{Call, Case, Damage, RunCase, TableCase, TextCase};
use crate::model::Model;
use reference::eventb::compare::Asked;
use reference::eventb::EVENTB_LIMIT;
use reference::kit::shorten;
use reference::listing::LISTING_LIMIT;
use reference::meaning::{Diagram, Event};
use reference::plain::TABLE_LIMIT;
use reference::table::RECORD_BYTES;
use reference::{TEXT_LIMIT, WORD_LIMIT};
use std::ops::Range;

type Fails<'f> = &'f dyn Fn(&Case) -> bool;

/// How often a case is gone over at most.
const ROUNDS: usize = 6;

pub fn smaller(case: &Case, fails: Fails) -> Case {
    let mut case = case.clone();
    for _ in 0..ROUNDS {
        let next = match case.clone() {
            Case::Text(text) => Case::Text(smaller_text(text, fails)),
            Case::Run(run) => Case::Run(smaller_run(run, fails)),
            Case::Table(table) => Case::Table(smaller_table(table, fails)),
            Case::Machine(machine) => Case::Machine(smaller_machine(machine, fails)),
        };
        if next == case {
            break;
        }
        case = next;
    }
    case
}

/// A number nearer to 0 that still fails, by steps that get smaller.
fn smaller_number(mut number: u64, fails: impl Fn(u64) -> bool) -> u64 {
    let mut step = number;
    while step > 0 {
        match step <= number && fails(number - step) {
            true => number -= step,
            false => step /= 2,
        }
    }
    number
}

/// Fewer numbers, and those nearer to 0.
fn smaller_numbers(numbers: &[u64], fails: &dyn Fn(&[u64]) -> bool) -> Vec<u64> {
    let mut numbers = shorten(numbers, fails);
    for at in 0..numbers.len() {
        numbers[at] = smaller_number(numbers[at], |number| {
            let mut nearer = numbers.clone();
            nearer[at] = number;
            fails(&nearer)
        });
    }
    numbers
}

// ---------------------------------------------------------------------------
// Texts
// ---------------------------------------------------------------------------

fn smaller_text(mut case: TextCase, fails: Fails) -> TextCase {
    let still = |case: &TextCase| fails(&Case::Text(case.clone()));
    let with_text = |text: &[u8]| TextCase { text: text.to_vec(), ..case.clone() };
    case.text = with_fewer_nodes(&case.text, &mut |text| still(&with_text(text)));
    let with_text = |text: &[u8]| TextCase { text: text.to_vec(), ..case.clone() };
    case.text = with_fewer_bytes(&case.text, &|text| still(&with_text(text)));
    case.nodes = smaller_numbers(&case.nodes, &|nodes| still(&TextCase { nodes: nodes.to_vec(), ..case.clone() }));
    case.events = smaller_numbers(&case.events, &|events| still(&TextCase { events: events.to_vec(), ..case.clone() }));
    with_plain_buffers(case, &still)
}

/// Lengths that are just enough, where the case fails with them too.
fn with_plain_buffers(mut case: TextCase, still: &dyn Fn(&TextCase) -> bool) -> TextCase {
    let changes: [fn(&mut TextCase); 4] = [
        |case| case.print = TEXT_LIMIT,
        |case| case.translate = TABLE_LIMIT,
        |case| case.list = LISTING_LIMIT,
        |case| case.name = WORD_LIMIT,
    ];
    for change in changes {
        let mut plain = case.clone();
        change(&mut plain);
        if still(&plain) {
            case = plain;
        }
    }
    case
}

fn is_in_word(byte: &u8) -> bool {
    byte.is_ascii_alphanumeric() || *byte == b'_'
}

/// Words, remarks, and all other bytes one by one. Any text has them.
fn pieces(text: &[u8]) -> Vec<&[u8]> {
    let mut pieces = Vec::new();
    let mut left = text;
    while let Some(first) = left.first() {
        let length = match first {
            b'#' => left.iter().take_while(|byte| **byte != b'\n').count(),
            _ => left.iter().take_while(|byte| is_in_word(byte)).count().max(1),
        };
        let (piece, after) = left.split_at(length);
        pieces.push(piece);
        left = after;
    }
    pieces
}

/// What may stand between tokens.
fn is_gap(piece: &[u8]) -> bool {
    piece.starts_with(b"#") || piece == b" " || piece == b"\n"
}

fn with_fewer_bytes(text: &[u8], fails: &dyn Fn(&[u8]) -> bool) -> Vec<u8> {
    let fewer = shorten(&pieces(text), |pieces| fails(&pieces.concat())).concat();
    shorten(&fewer, fails)
}

/// Puts simpler texts in the place of a text, node by node, as long as they
/// are taken.
fn with_fewer_nodes(text: &[u8], takes: &mut dyn FnMut(&[u8]) -> bool) -> Vec<u8> {
    let mut text = text.to_vec();
    let without_gaps = pieces(&text).into_iter().filter(|piece| !is_gap(piece)).collect::<Vec<_>>().concat();
    if without_gaps != text && takes(&without_gaps) {
        text = without_gaps;
    }
    let mut node = 0;
    while let Some(simpler) = simpler_texts(&text, node) {
        match simpler.into_iter().find(|simpler| takes(simpler)) {
            Some(simpler) => text = simpler,
            None => node += 1,
        }
    }
    text
}

/// Where a node stands among the pieces: its keyword and its own brackets, and
/// those with the ref that may follow them.
struct Extent {
    own: Range<usize>,
    end: usize,
}

/// The text without its node of this number, with nodes inside it in its place,
/// and with a leaf in its place; none if there is no such node.
fn simpler_texts(text: &[u8], node: usize) -> Option<Vec<Vec<u8>>> {
    let pieces = pieces(text);
    let nodes: Vec<Extent> = (0..pieces.len()).filter_map(|at| extent(&pieces, at)).collect();
    let Extent { own, end } = nodes.get(node)?;
    let with = |end: usize, middle: &[&[u8]]| [&pieces[..own.start], middle, &pieces[end..]].concat().concat();
    let inner = nodes[node + 1..].iter().take(2).take_while(|inner| inner.own.end <= own.end);
    // The name of a flow, the par of a replicator: flows inside no longer list it.
    let word = pieces[own.start + 2];
    let mut simpler = vec![with(*end, &[])];
    simpler.extend(inner.map(|inner| with(own.end, &without_par(&pieces[inner.own.clone()], word))));
    if pieces[own.start] == b"flow" {
        simpler.push(with(own.end, &[b"leaf", b"(", word, b")"]));
    }
    Some(simpler)
}

/// These pieces without each place where the par is listed after a comma.
fn without_par<'t>(pieces: &[&'t [u8]], par: &[u8]) -> Vec<&'t [u8]> {
    let is_listed = |at: usize| pieces[at] == b"," && pieces.get(at + 1).is_some_and(|word| *word == par);
    let stays = |at: &usize| !is_listed(*at) && (*at == 0 || !is_listed(*at - 1));
    (0..pieces.len()).filter(stays).map(|at| pieces[at]).collect()
}

/// The node whose keyword is this piece, if it is one.
fn extent(pieces: &[&[u8]], at: usize) -> Option<Extent> {
    let brackets = match pieces[at] {
        b"leaf" | b"and" | b"or" | b"xor" | b"loop" => 1,
        b"flow" | b"all" | b"some" | b"one" => 2,
        _ => return None,
    };
    let mut own_end = at + 1;
    for _ in 0..brackets {
        own_end = after_brackets(pieces, own_end)?;
    }
    Some(Extent { own: at..own_end, end: after_brackets(pieces, own_end).unwrap_or(own_end) })
}

/// The piece after the brackets that open at this one.
fn after_brackets(pieces: &[&[u8]], open: usize) -> Option<usize> {
    if *pieces.get(open)? != b"(" {
        return None;
    }
    let mut depth = 0;
    let closing = pieces[open..].iter().position(|piece| {
        depth += i32::from(*piece == b"(") - i32::from(*piece == b")");
        depth == 0
    });
    closing.map(|at| open + at + 1)
}

// ---------------------------------------------------------------------------
// Runs
// ---------------------------------------------------------------------------

fn smaller_run(mut case: RunCase, fails: Fails) -> RunCase {
    let still = |text: &[u8], calls: &[Call]| fails(&Case::Run(RunCase { text: text.to_vec(), calls: calls.to_vec() }));
    case.calls = shorten(&case.calls, |calls| still(&case.text, calls));
    let mut current = case.clone();
    with_fewer_nodes(&case.text, &mut |text| match same_calls(&current, text) {
        Some(calls) if still(text, &calls) => {
            current = RunCase { text: text.to_vec(), calls };
            true
        }
        _ => false,
    });
    let RunCase { text, mut calls } = current;
    let text = with_fewer_bytes(&text, &|text| still(text, &calls));
    for at in 0..calls.len() {
        calls[at] = simpler_call(calls[at], |call| {
            let mut simpler = calls.clone();
            simpler[at] = call;
            still(&text, &simpler)
        });
    }
    RunCase { text, calls }
}

/// A plain step in the place of one through the thin call, and an event nearer
/// to 0.
fn simpler_call(call: Call, fails: impl Fn(Call) -> bool) -> Call {
    match call {
        Call::Finished => call,
        Call::Update(event) if !fails(Call::Step(event)) => {
            Call::Update(smaller_number(event, |event| fails(Call::Update(event))))
        }
        Call::Step(event) | Call::Update(event) => Call::Step(smaller_number(event, |event| fails(Call::Step(event)))),
    }
}

/// The calls of a case for another drawing: the same events have other numbers
/// there, and some are gone.
fn same_calls(case: &RunCase, text: &[u8]) -> Option<Vec<Call>> {
    let (old, new) = (Diagram::of(&case.text).ok()?, Diagram::of(text).ok()?);
    let same = |call: &Call| match call {
        Call::Step(event) if *event < old.events.len() as u64 => {
            same_event(&old.events[*event as usize], &new).map(|event| Call::Step(event as u64))
        }
        Call::Update(event) if *event < old.events.len() as u64 => {
            same_event(&old.events[*event as usize], &new).map(|event| Call::Update(event as u64))
        }
        call => Some(*call),
    };
    Some(case.calls.iter().filter_map(same).collect())
}

/// The event of the same name and values; if the outer replicators are gone,
/// without their values.
fn same_event(event: &Event, diagram: &Diagram) -> Option<usize> {
    let with_values = |fits: &dyn Fn(&[usize]) -> bool| {
        let is_same = |other: &Event| other.name == event.name && other.reset == event.reset && fits(&other.values);
        diagram.events.iter().position(is_same)
    };
    with_values(&|values| values == event.values).or_else(|| with_values(&|values| event.values.ends_with(values)))
}

// ---------------------------------------------------------------------------
// Event-B machines
// ---------------------------------------------------------------------------

fn smaller_machine(mut case: Asked, fails: Fails) -> Asked {
    let still = |case: &Asked| fails(&Case::Machine(case.clone()));
    case.run = shorten(&case.run, |run| still(&Asked { run: run.to_vec(), ..case.clone() }));
    case.numbers = smaller_numbers(&case.numbers, &|list| still(&Asked { numbers: list.to_vec(), ..case.clone() }));
    let mut current = case.clone();
    with_fewer_nodes(&case.text, &mut |text| {
        let run = same_run(&current, text).unwrap_or_default();
        let simpler = Asked { text: text.to_vec(), run, ..current.clone() };
        let taken = still(&simpler);
        if taken {
            current = simpler;
        }
        taken
    });
    current.text = with_fewer_bytes(&current.text, &|text| still(&Asked { text: text.to_vec(), ..current.clone() }));
    let plain = Asked { length: EVENTB_LIMIT, ..current.clone() };
    match still(&plain) {
        true => plain,
        false => current,
    }
}

/// The events of a case for another drawing.
fn same_run(case: &Asked, text: &[u8]) -> Option<Vec<u64>> {
    let calls = case.run.iter().map(|event| Call::Step(*event)).collect();
    let calls = same_calls(&RunCase { text: case.text.clone(), calls }, text)?;
    Some(calls.into_iter().filter_map(Call::event).collect())
}

// ---------------------------------------------------------------------------
// Tables
// ---------------------------------------------------------------------------

fn smaller_table(mut case: TableCase, fails: Fails) -> TableCase {
    let still = |case: &TableCase| fails(&Case::Table(case.clone()));
    case.damage = shorten(&case.damage, |damage| still(&TableCase { damage: damage.to_vec(), ..case.clone() }));
    case = with_fewer_rows(case, &still);
    case = with_fewer_events(case, &still);
    case.record = with_fewer_bits(&case, &still);
    case.event = smaller_number(case.event, |event| still(&TableCase { event, ..case.clone() }));
    let plain = TableCase { offer: RECORD_BYTES, ..case.clone() };
    if still(&plain) {
        return plain;
    }
    case
}

/// The record with bits cleared, of the right length if that fails too.
fn with_fewer_bits(case: &TableCase, still: &dyn Fn(&TableCase) -> bool) -> Vec<u8> {
    let fails = |record: Vec<u8>| still(&TableCase { record, ..case.clone() });
    let blank = vec![0; RECORD_BYTES];
    if fails(blank.clone()) {
        return blank;
    }
    let length = case.record.len();
    record_of(&shorten(&set_bits(&case.record), |bits| fails(record_of(bits, length))), length)
}

fn with_fewer_rows(case: TableCase, still: &dyn Fn(&TableCase) -> bool) -> TableCase {
    let Some(model) = Model::of(&case.table) else { return case };
    let first = 1 + model.events.len();
    let with = |left: &[usize]| TableCase {
        table: model.with_rows(left).bytes(),
        damage: moved_damage(&case.damage, first, model.rows.len(), left),
        ..case.clone()
    };
    let all: Vec<usize> = (0..model.rows.len()).collect();
    with(&shorten(&all, |left| still(&with(left))))
}

fn with_fewer_events(case: TableCase, still: &dyn Fn(&TableCase) -> bool) -> TableCase {
    let Some(model) = Model::of(&case.table) else { return case };
    let events = model.events.len();
    let with = |left: &[usize]| TableCase {
        table: model.with_events(left).bytes(),
        damage: moved_damage(&case.damage, 1, events, left),
        record: moved_record(&case.record, events, left),
        event: moved_number(case.event, events, left),
        ..case.clone()
    };
    let all: Vec<usize> = (0..model.events.len()).collect();
    with(&shorten(&all, |left| still(&with(left))))
}

/// The number of an event when only these of so many are left; what is past
/// them stays as far past.
fn moved_number(event: u64, events: usize, left: &[usize]) -> u64 {
    match event < events as u64 {
        true => left.partition_point(|kept| (*kept as u64) < event) as u64,
        false => event - (events - left.len()) as u64,
    }
}

fn moved_record(record: &[u8], events: usize, left: &[usize]) -> Vec<u8> {
    let is_left = |bit: &usize| *bit >= events || left.contains(bit);
    let bits = set_bits(record).into_iter().filter(is_left);
    let moved: Vec<usize> = bits.map(|bit| moved_number(bit as u64, events, left) as usize).collect();
    record_of(&moved, record.len())
}

fn set_bits(record: &[u8]) -> Vec<usize> {
    (0..8 * record.len()).filter(|bit| record[bit / 8] & 128 >> (bit % 8) != 0).collect()
}

fn record_of(bits: &[usize], length: usize) -> Vec<u8> {
    let mut record = vec![0; length];
    bits.iter().for_each(|bit| record[bit / 8] |= 128 >> (bit % 8));
    record
}

/// The damage of a table of whose words, so many from the first on, only these
/// are left. Damage moves with its word, or to where the word would be.
fn moved_damage(damage: &[Damage], first: usize, count: usize, left: &[usize]) -> Vec<Damage> {
    let moved = |byte: usize| {
        let word = match byte / 4 {
            before if before < first => before,
            within if within < first + count => first + left.partition_point(|kept| *kept < within - first),
            after => after - (count - left.len()),
        };
        4 * word + byte % 4
    };
    let move_one = |damage: &Damage| match *damage {
        Damage::Bit(bit) => Damage::Bit(8 * moved(bit / 8) + bit % 8),
        Damage::Byte(at, value) => Damage::Byte(moved(at), value),
        Damage::Cut(length) => Damage::Cut(moved(length)),
        longer => longer,
    };
    damage.iter().map(move_one).collect()
}

// ---------------------------------------------------------------------------
// Libraries that are wrong on purpose
// ---------------------------------------------------------------------------

mod wrong {
    use crate::case::{Call, Case};
    use crate::make;
    use crate::playing::{play, report};
    use reference::eventb::compare::{self, Asked};
    use reference::eventb::EVENTB_LIMIT;
    use reference::plain::calls::{Calls, PROVED};
    use reference::plain::TABLE_LIMIT;
    use reference::plain_eventb::{written, Ways, RIGHT};
    use reference::remarks::remarks_in;
    use reference::table::Words;
    use reference::{proved, TEXT_LIMIT};

    /// Prints a drawing with a `some` in it without its last byte.
    fn short_print(text: &[u8], out: &mut [u8]) -> u64 {
        let length = proved::print(text, out);
        let accepted = length >> 32 == 0;
        length - u64::from(accepted && text.windows(4).any(|word| word == b"some"))
    }

    /// Takes event 2 and forgets it if event 0 was taken.
    fn forgetful_step(table: &[u8], record: &mut [u8], event: u64) -> u8 {
        let before = record.to_vec();
        let answer = proved::step(table, record, event);
        if answer == 0 && event == 2 && before.first().is_some_and(|byte| byte & 128 != 0) {
            record.copy_from_slice(&before);
        }
        answer
    }

    /// Takes a reset without clearing a bit.
    fn stubborn_step(table: &[u8], record: &mut [u8], event: u64) -> u8 {
        let before = record.to_vec();
        let answer = proved::step(table, record, event);
        record.iter_mut().zip(before).for_each(|(byte, before)| *byte |= before);
        answer
    }

    /// Offers nothing if control bit 1 is set.
    fn silent_offer(table: &[u8], record: &[u8], out: &mut [u8]) -> u8 {
        let answer = proved::offer(table, record, out);
        if answer == 0 && record[0] & 64 != 0 {
            out[..64].fill(0);
        }
        answer
    }

    /// Finds a table sound in which a row of kind 1 names itself.
    fn lenient_check(table: &[u8]) -> u8 {
        let events = usize::from(u16::from_be_bytes(*table.first_chunk().unwrap_or(&[0; 2])));
        let mut rows = table.chunks_exact(4).skip(1 + events).enumerate();
        let names_itself = |(at, word): (usize, &[u8])| {
            let word = u32::from_be_bytes([word[0], word[1], word[2], word[3]]);
            word >> 30 == 1 && (word >> 15 & 0x7FFF) as usize == at
        };
        match rows.any(names_itself) {
            true => 0,
            false => proved::check(table),
        }
    }

    /// Takes byte 9 in a remark for a blank.
    fn read_with_tabs(text: &[u8]) -> u64 {
        let mut text = text.to_vec();
        for remark in remarks_in(&text) {
            text[remark].iter_mut().filter(|byte| **byte == 9).for_each(|byte| *byte = b' ');
        }
        proved::read(&text)
    }

    /// Prints a # right before a line end with the drawing.
    fn print_with_marks(text: &[u8], out: &mut [u8]) -> u64 {
        let length = proved::print(text, out);
        let accepted = length >> 32 == 0;
        length + u64::from(accepted && text.windows(2).any(|pair| pair == b"#\n"))
    }

    /// The case that is printed when a library differs; it fails again.
    fn printed(library: &Calls) -> Case {
        let (failing, _) = play(1, 20_000, library);
        let failing = make::make(1, failing.expect("the library is wrong")).case;
        let report = report(&failing, library);
        let line = report.lines().last().expect("a case is printed");
        let case: Case = line.parse().expect("a case is printed");
        assert!(case.difference(library).is_some(), "{line}");
        case
    }

    #[test]
    fn a_short_print_is_found_and_made_small() {
        let case = printed(&Calls { print: short_print, ..PROVED });
        let Case::Text(case) = case else { panic!("no text: {case}") };
        assert!(case.text.len() <= 60, "{}", case.text.escape_ascii());
        assert!(case.nodes.is_empty() && case.events.is_empty() && case.translate == TABLE_LIMIT);
    }

    #[test]
    fn a_tab_in_a_remark_is_found_and_made_small() {
        let case = printed(&Calls { read: read_with_tabs, ..PROVED });
        let Case::Text(case) = case else { panic!("no text: {case}") };
        assert_eq!(case.text, b"#\t");
        assert!(case.nodes.is_empty() && case.events.is_empty() && case.print == TEXT_LIMIT);
    }

    /// The drawing is made smaller though it must keep a remark.
    #[test]
    fn a_printed_remark_is_found_and_made_small() {
        let case = printed(&Calls { print: print_with_marks, ..PROVED });
        let Case::Text(case) = case else { panic!("no text: {case}") };
        assert!(case.text.len() <= 30, "{}", case.text.escape_ascii());
        assert_eq!(remarks_in(&case.text).len(), 1);
    }

    #[test]
    fn a_forgetful_step_is_found_and_made_small() {
        let case = printed(&Calls { step: forgetful_step, ..PROVED });
        let Case::Run(case) = case else { panic!("no run: {case}") };
        assert!(case.text.len() <= 60, "{}", case.text.escape_ascii());
        let [Call::Step(0), between @ .., Call::Step(2)] = &case.calls[..] else { panic!("{case:?}") };
        assert!(matches!(between, [] | [Call::Step(_)]), "{case:?}");
    }

    /// Takes event 2 and forgets it if event 0 was taken.
    fn forgetful_update(table: &[u8], words: &mut Words, event: u64) -> u64 {
        let before = *words;
        let answer = proved::update(table, words, event);
        if answer == 0 && event == 2 && before[0] >> 63 != 0 {
            *words = before;
        }
        answer
    }

    #[test]
    fn a_forgetful_thin_call_is_found_and_made_small() {
        let case = printed(&Calls { update: forgetful_update, ..PROVED });
        let Case::Run(case) = case else { panic!("no run: {case}") };
        assert!(case.text.len() <= 60, "{}", case.text.escape_ascii());
        let [Call::Step(0), between @ .., Call::Update(2)] = &case.calls[..] else { panic!("{case:?}") };
        assert!(matches!(between, [] | [Call::Step(_)]), "{case:?}");
    }

    #[test]
    fn a_stubborn_step_is_found_and_made_small() {
        let case = printed(&Calls { step: stubborn_step, ..PROVED });
        let Case::Run(case) = case else { panic!("no run: {case}") };
        assert!(case.text.len() <= 80 && case.calls.len() <= 3, "{case:?}");
    }

    #[test]
    fn a_silent_offer_is_found_and_made_small() {
        let case = printed(&Calls { offer: silent_offer, ..PROVED });
        let Case::Run(case) = case else { panic!("no run: {case}") };
        assert!(case.text.len() <= 60 && case.calls.len() <= 2, "{case:?}");
    }

    #[test]
    fn a_lenient_check_is_found_and_made_small() {
        let case = printed(&Calls { check: lenient_check, ..PROVED });
        let Case::Table(case) = case else { panic!("no table: {case}") };
        assert!(case.damage.len() == 1 && case.table.len() <= 24, "{case:?}");
        assert_eq!((case.event, case.record), (0, vec![0; 64]));
    }

    fn printed_machine(eventb: compare::Call) -> Asked {
        match printed(&Calls { eventb, ..PROVED }) {
            Case::Machine(case) => case,
            case => panic!("no machine: {case}"),
        }
    }

    #[test]
    fn a_refusal_that_writes_is_found_and_made_small() {
        let case = printed_machine(|text, event, out| {
            let answer = proved::eventb(text, event, out);
            if let (Some(last), true) = (out.last_mut(), answer >> 32 != 0) {
                *last = 0;
            }
            answer
        });
        assert!(case.text.len() <= 30 && case.numbers.len() == 1 && case.run.is_empty(), "{case:?}");
    }

    #[test]
    fn a_forgotten_successor_is_found_and_made_small() {
        let case =
            printed_machine(|text, event, out| written(Ways { all_later_children: false, ..RIGHT }, text, event, out));
        assert!(case.text.len() <= 90 && case.run.len() <= 3 && case.numbers.is_empty(), "{case:?}");
        assert_eq!(case.length, EVENTB_LIMIT);
    }

    #[test]
    fn a_member_halfway_is_found_and_made_small() {
        let case =
            printed_machine(|text, event, out| written(Ways { members_halfway: false, ..RIGHT }, text, event, out));
        assert!(case.text.len() <= 90 && case.run.len() <= 3 && case.numbers.is_empty(), "{case:?}");
    }

    #[test]
    fn a_forgotten_clearing_is_found_and_made_small() {
        let case = printed_machine(|text, event, out| written(Ways { clears: false, ..RIGHT }, text, event, out));
        assert!(case.text.len() <= 60 && case.run.is_empty(), "{case:?}");
    }

    #[test]
    fn guards_from_0_are_found_and_made_small() {
        let case = printed_machine(|text, event, out| written(Ways { first_guard: 0, ..RIGHT }, text, event, out));
        assert!(case.text.len() <= 30 && case.run.is_empty(), "{case:?}");
    }

    #[test]
    fn a_machine_of_33_events_is_found() {
        let case = printed_machine(|text, event, out| written(Ways { most_events: 33, ..RIGHT }, text, event, out));
        assert!(case.text.len() <= 700 && case.numbers.len() == 1, "{case:?}");
    }
}
