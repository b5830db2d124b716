//! The generated cases: case k of a seed is made from the two numbers alone. In
//! some of them the library's own translation has a part, which is fixed too.

use crate::calls::{past_the_events, random_calls, random_run};
use crate::case::{Case, Damage, RunCase, TableCase, TextCase};
use crate::machines::sizes_of;
use crate::model::{random_past_a_limit, random_sound};
use reference::drawings::{accepted_text, machine_text, Machine, Size};
use reference::eventb::compare::Asked;
use reference::eventb::{drawing_of, EVENTB_LIMIT};
use reference::generate::{damaged, damaged_by_a_token, random_sort, text_of, Random, Sort};
use reference::listing::LISTING_LIMIT;
use reference::meaning::Diagram;
use reference::plain::{self, TABLE_LIMIT};
use reference::table::{self, MOST_EVENTS, RECORD_BYTES};
use reference::{proved, read, Summary, TEXT_LIMIT, WORD_LIMIT};

/// A case, and in which ways it was made.
pub struct Made {
    pub case: Case,
    pub ways: Vec<&'static str>,
}

/// All ways that `make` tells.
pub const WAYS: [&str; 31] = [
    "text: drawing",
    "text: drawing, tokens damaged",
    "text: drawing, bytes damaged",
    "text: tokens in no order",
    "text: remarks, hardly a token",
    "text: random bytes",
    "text: accepted drawing",
    "text: accepted drawing, bytes damaged",
    "text: accepted drawing, a token damaged",
    "run: of a small drawing",
    "run: of a middle drawing",
    "run: of a deep drawing",
    "run: of a full drawing",
    "table: translated by the library",
    "table: translated by the reference",
    "table: random and sound",
    "table: random, E or R just past a limit",
    "record: blank",
    "record: reached by steps",
    "record: random below E",
    "record: with a stray bit",
    "record: of a wrong length",
    "machine: of a small drawing",
    "machine: of a middle drawing",
    "machine: of a deep drawing",
    "machine: of a nested drawing",
    "machine: of just 32 events",
    "machine: 33 events",
    "machine: replicators of size 1",
    "machine: any accepted drawing",
    "machine: text of any sort",
];

/// One case in so many is a machine, whatever the seed is.
const MACHINE_EACH: u64 = 13;

pub fn make(seed: u64, number: u64) -> Made {
    let random = &mut Random::new(Random::new(seed).number().wrapping_add(number));
    match random.below(100) {
        _ if number % MACHINE_EACH == MACHINE_EACH - 1 => make_machine(random),
        0..=34 => make_text(random),
        35..=59 => make_run(random),
        _ => make_table(random),
    }
}

// ---------------------------------------------------------------------------
// Texts
// ---------------------------------------------------------------------------

fn make_text(random: &mut Random) -> Made {
    let (way, text) = match random.below(100) {
        0..=69 => text_of_any_sort(random),
        70..=84 => ("text: accepted drawing", accepted_text(random_size(random), random)),
        85..=92 => {
            let text = accepted_text(random_size(random), random);
            ("text: accepted drawing, bytes damaged", damaged(text, random))
        }
        _ => {
            let text = accepted_text(random_size(random), random);
            ("text: accepted drawing, a token damaged", damaged_by_a_token(&text, random))
        }
    };
    let summary = read(&text).ok();
    let case = TextCase {
        print: random_length(TEXT_LIMIT, random),
        translate: random_length(TABLE_LIMIT, random),
        list: random_front(LISTING_LIMIT, random),
        name: random_front(WORD_LIMIT, random),
        nodes: node_indices(&text, summary.as_ref(), random),
        events: event_numbers(&text, summary.as_ref(), random),
        text,
    };
    Made { case: Case::Text(case), ways: vec![way] }
}

fn text_of_any_sort(random: &mut Random) -> (&'static str, Vec<u8>) {
    let sort = random_sort(random);
    let way = match sort {
        Sort::Drawing => "text: drawing",
        Sort::DamagedTokens => "text: drawing, tokens damaged",
        Sort::DamagedBytes => "text: drawing, bytes damaged",
        Sort::TokenSoup => "text: tokens in no order",
        Sort::Remarks => "text: remarks, hardly a token",
        Sort::Bytes => "text: random bytes",
    };
    (way, text_of(sort, random))
}

fn random_size(random: &mut Random) -> Size {
    match random.below(100) {
        0..=69 => Size::Small(random.within(3, 14)),
        70..=89 => Size::Middle,
        90..=96 => Size::Deep,
        _ => Size::Full,
    }
}

/// A buffer that is empty, short by one, just long enough, or longer.
fn random_length(limit: usize, random: &mut Random) -> usize {
    match random.below(10) {
        0 => 0,
        1 => limit - 1,
        2..=5 => limit,
        _ => limit + random.within(1, 97),
    }
}

/// The same, or one that takes only the front of what is written.
fn random_front(limit: usize, random: &mut Random) -> usize {
    match random.below(4) {
        0 => random.below(limit.min(200)),
        _ => random_length(limit, random),
    }
}

/// How many nodes or events of a text are asked for at most: the whole text is
/// read for each of them.
fn most_questions(text: &[u8]) -> usize {
    (8_000 / text.len().max(1)).clamp(3, 40)
}

/// All nodes of a small drawing, some of a larger one and rarely all, and an
/// index past the last. A text that is turned away has none.
fn node_indices(text: &[u8], summary: Option<&Summary>, random: &mut Random) -> Vec<u64> {
    let nodes = summary.map_or(0, |summary| summary.nodes.len());
    let past = *random.pick(&[nodes as u64, nodes as u64 + 1, 256, 1 << 32, u64::MAX]);
    let mut indices: Vec<u64> = match most_questions(text) {
        most if nodes <= most || random.once_in(50) => (0..nodes as u64).collect(),
        most => (0..most).map(|_| random.below(nodes) as u64).chain([nodes as u64 - 1]).collect(),
    };
    indices.push(past);
    indices
}

/// All event numbers of a small drawing, some of a larger one, and some past
/// the last.
fn event_numbers(text: &[u8], summary: Option<&Summary>, random: &mut Random) -> Vec<u64> {
    let events = summary.map_or(0, |summary| summary.events);
    let mut numbers: Vec<u64> = match most_questions(text).min(8) {
        most if events <= most => (0..events as u64).collect(),
        most => (1..most).map(|_| random.below(events) as u64).chain([events as u64 - 1]).collect(),
    };
    numbers.extend([events as u64, past_the_events(events, random)]);
    numbers
}

// ---------------------------------------------------------------------------
// Runs
// ---------------------------------------------------------------------------

fn make_run(random: &mut Random) -> Made {
    let size = random_size(random);
    let way = match size {
        Size::Small(_) => "run: of a small drawing",
        Size::Middle => "run: of a middle drawing",
        Size::Deep => "run: of a deep drawing",
        Size::Full => "run: of a full drawing",
    };
    let text = accepted_text(size, random);
    let diagram = Diagram::of(&text).expect("the drawing is accepted");
    let calls = random_calls(&diagram, random);
    Made { case: Case::Run(RunCase { text, calls }), ways: vec![way] }
}

// ---------------------------------------------------------------------------
// Tables
// ---------------------------------------------------------------------------

fn make_table(random: &mut Random) -> Made {
    let (table_way, table) = random_table(random);
    let (record_way, record) = random_record(&table, random);
    let event = random_event(&table, &record, random);
    let offer = *random.pick(&[0, 63, 64, 64, 64, 65, 100]);
    let damage = random_damage(table.len(), random);
    let case = TableCase { table, damage, record, event, offer };
    Made { case: Case::Table(case), ways: vec![table_way, record_way] }
}

fn random_table(random: &mut Random) -> (&'static str, Vec<u8>) {
    match random.below(100) {
        0..=24 => ("table: translated by the library", translated(proved::translate, random)),
        25..=49 => ("table: translated by the reference", translated(translate_plainly, random)),
        50..=97 => ("table: random and sound", random_sound(random).bytes()),
        _ => ("table: random, E or R just past a limit", random_past_a_limit(random).bytes()),
    }
}

fn translate_plainly(text: &[u8], out: &mut [u8]) -> u64 {
    plain::translate(text, out).expect("the drawing is accepted") as u64
}

fn translated(translate: fn(&[u8], &mut [u8]) -> u64, random: &mut Random) -> Vec<u8> {
    let text = accepted_text(random_size(random), random);
    let mut table = vec![0; TABLE_LIMIT];
    let length = translate(&text, &mut table);
    table.truncate(length as usize);
    // A wrong translation is found by the runs; here a table is needed.
    match table::check(&table) {
        table::SOUND => table,
        _ => random_sound(random).bytes(),
    }
}

/// E, of a table that is not damaged yet.
fn events_of(table: &[u8]) -> usize {
    usize::from(u16::from_be_bytes([table[0], table[1]]))
}

fn random_record(table: &[u8], random: &mut Random) -> (&'static str, Vec<u8>) {
    let events = events_of(table);
    match random.below(20) {
        0..=2 => ("record: blank", vec![0; RECORD_BYTES]),
        3..=10 => ("record: reached by steps", reached_record(table, random)),
        11..=15 => ("record: random below E", random_bits(events, random)),
        16..=17 => {
            let mut record = reached_record(table, random);
            set_stray_bit(&mut record, events, random);
            ("record: with a stray bit", record)
        }
        _ => {
            let length = *random.pick(&[0, 63, 65, 128]);
            let byte = *random.pick(&[0, 0xFF]);
            ("record: of a wrong length", vec![byte; length])
        }
    }
}

/// The record after some events that the table takes.
fn reached_record(table: &[u8], random: &mut Random) -> Vec<u8> {
    let mut record = vec![0; RECORD_BYTES];
    for _ in 0..random.below(12) {
        if let Some(event) = offered_event(table, &record, random) {
            table::step(table, &mut record, event);
        }
    }
    record
}

fn offered_event(table: &[u8], record: &[u8], random: &mut Random) -> Option<u64> {
    let mut bits = [0; RECORD_BYTES];
    table::offer(table, record, &mut bits);
    let is_offered = |event: &usize| bits[event / 8] & 128 >> (event % 8) != 0;
    let offered: Vec<usize> = (0..MOST_EVENTS).filter(is_offered).collect();
    (!offered.is_empty()).then(|| *random.pick(&offered) as u64)
}

fn random_bits(events: usize, random: &mut Random) -> Vec<u8> {
    let mut record = vec![0; RECORD_BYTES];
    let one_in = *random.pick(&[1, 2, 2, 5]);
    for event in 0..events.min(MOST_EVENTS) {
        if random.once_in(one_in) {
            record[event / 8] |= 128 >> (event % 8);
        }
    }
    record
}

/// At E, at the last bit, or anywhere past E; none if E is 512.
fn set_stray_bit(record: &mut [u8], events: usize, random: &mut Random) {
    if events < MOST_EVENTS {
        let bit = match random.below(3) {
            0 => events,
            1 => MOST_EVENTS - 1,
            _ => random.within(events, MOST_EVENTS - 1),
        };
        record[bit / 8] |= 128 >> (bit % 8);
    }
}

fn random_event(table: &[u8], record: &[u8], random: &mut Random) -> u64 {
    let events = events_of(table);
    match random.below(20) {
        0..=7 => offered_event(table, record, random).unwrap_or(0),
        8..=12 => random.below(events.max(1)) as u64,
        13..=14 => events as u64,
        _ => past_the_events(events, random),
    }
}

/// A byte of the table's head, or anywhere.
fn random_place(length: usize, random: &mut Random) -> usize {
    match random.below(5) {
        0 => random.below(4),
        _ => random.below(length),
    }
}

fn random_damage(length: usize, random: &mut Random) -> Vec<Damage> {
    match random.below(20) {
        0..=8 => Vec::new(),
        9..=15 => vec![Damage::Bit(8 * random_place(length, random) + random.below(8))],
        16..=17 => {
            let byte = |random: &mut Random| Damage::Byte(random_place(length, random), random.number() as u8);
            (0..random.within(1, 4)).map(|_| byte(random)).collect()
        }
        18 => {
            let lengths = [0, 3, 4, length - 4, length - 1, random.below(length)];
            vec![Damage::Cut(*random.pick(&lengths))]
        }
        _ => (0..*random.pick(&[1, 4, 4, 7])).map(|_| Damage::Longer(random.number() as u8)).collect(),
    }
}

// ---------------------------------------------------------------------------
// Event-B machines
// ---------------------------------------------------------------------------

fn make_machine(random: &mut Random) -> Made {
    let (way, text) = machine_source(random);
    let length = random_length(EVENTB_LIMIT, random);
    let events = read(&text).map_or(0, |summary| summary.events);
    let run = match drawing_of(&text) {
        Ok(diagram) => random_run(&diagram, random),
        Err(_) => Vec::new(),
    };
    let case = Asked { numbers: machine_numbers(events, random), text, length, run };
    Made { case: Case::Machine(case), ways: vec![way] }
}

fn machine_source(random: &mut Random) -> (&'static str, Vec<u8>) {
    match random.below(100) {
        0..=23 => ("machine: of a small drawing", machine_text(Machine::UpTo(random.within(1, 10)), random)),
        24..=43 => ("machine: of a middle drawing", machine_text(Machine::UpTo(random.within(8, 32)), random)),
        44..=53 => ("machine: of a deep drawing", machine_text(Machine::Deep(random.within(20, 32)), random)),
        54..=63 => ("machine: of a nested drawing", machine_text(Machine::Nested(random.within(24, 32)), random)),
        64..=70 => ("machine: of just 32 events", machine_text(Machine::Exactly(32), random)),
        71..=73 => ("machine: 33 events", machine_text(Machine::Exactly(33), random)),
        74..=76 => ("machine: replicators of size 1", with_size_1(random)),
        77..=83 => ("machine: any accepted drawing", accepted_text(random_size(random), random)),
        _ => ("machine: text of any sort", text_of_any_sort(random).1),
    }
}

/// A small drawing, whose sizes are 1 and 2, with all of them 1.
fn with_size_1(random: &mut Random) -> Vec<u8> {
    loop {
        let text = accepted_text(Size::Small(random.within(3, 14)), random);
        let text = String::from_utf8(text).expect("no byte is foreign").replace(":2)", ":1)");
        let sizes = sizes_of(&read(text.as_bytes()).expect("fewer copies are accepted too"));
        if !sizes.is_empty() && sizes.iter().all(|size| *size == 1) {
            return text.into_bytes();
        }
    }
}

/// Some event numbers; the events of a machine are all asked for anyway.
fn machine_numbers(events: usize, random: &mut Random) -> Vec<u64> {
    let below: Vec<u64> = (0..3).map(|_| random.below(events.max(1)) as u64).collect();
    below.into_iter().chain([events as u64, past_the_events(events, random)]).collect()
}
