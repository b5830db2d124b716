//! What the generated cases met, as the reference tells it: how often each
//! answer of each call, each kind inside each other, each limit, each situation
//! of a run, each place and look of a remark, each way to make a case, each length
//! of a buffer.

use crate::case::{Call, Case, Damage, RunCase, TableCase, TextCase};
use crate::machines::{add_machine, machine_nestings, MACHINES};
use crate::make::{Made, WAYS};
use crate::texts::answer_in;
use crate::watch::{watch, SITUATIONS};
use reference::drawings::{all_nestings, nestings};
use reference::eventb::compare::Asked;
use reference::eventb::{asked, drawing_of, EVENTB_LIMIT};
use reference::kit::Counts;
use reference::listing::{events, listing, Events, LISTING_LIMIT};
use reference::meaning::Diagram;
use reference::plain::TABLE_LIMIT;
use reference::remarks::{add_remarks, remarks_in, REMARKS};
use reference::table::{self, RECORD_BYTES};
use reference::{print, read, Kind, NodeInfo, Refusal, Summary, TEXT_LIMIT, WORD_LIMIT};
use std::collections::BTreeSet;
use std::fmt::{self, Display};

pub struct Coverage {
    pub counts: Counts,
}

impl Coverage {
    pub fn new() -> Coverage {
        Coverage { counts: Counts::new(titles()) }
    }

    pub fn join(&mut self, other: &Coverage) {
        self.counts.join(&other.counts);
    }

    pub fn add(&mut self, made: &Made) {
        made.ways.iter().for_each(|way| self.counts.add(way));
        match &made.case {
            Case::Text(case) => add_text(case, &mut self.counts),
            Case::Run(case) => add_run(case, &mut self.counts),
            Case::Table(case) => add_table(case, &mut self.counts),
            Case::Machine(case) => add_eventb(case, &mut self.counts),
        }
    }
}

// ---------------------------------------------------------------------------
// Titles
// ---------------------------------------------------------------------------

const CALLS: [&str; 14] = [
    "read",
    "node",
    "place",
    "print",
    "translate",
    "list",
    "name",
    "values",
    "eventb",
    "check",
    "step",
    "update",
    "offer",
    "finished",
];

/// The numbers that a call can answer with; 0 stands for what is no refusal.
/// The name call gives no number, but an empty name where values refuses. No
/// node has an index past the last one, which is the answer 255.
fn numbers_of(call: &str) -> Vec<u8> {
    let (before, after): (&[u8], &[u8]) = match call {
        "read" | "list" => (&[0], &[]),
        "node" | "place" => (&[0], &[255]),
        "print" | "translate" => (&[0, 1], &[]),
        "name" | "values" => (&[0], &[14]),
        "eventb" => (&[0, 1], &[14, 16]),
        "check" => return vec![0, 12],
        "step" => return vec![0, 1, 12, 13, 14, 15],
        "update" => return vec![0, 12, 13, 14, 15],
        "offer" => return vec![0, 1, 12, 13],
        _ => return vec![0, 1, 12, 13, 255],
    };
    before.iter().copied().chain(2..=11).chain(after.iter().copied()).collect()
}

const KINDS: [&str; 9] = ["flow", "leaf", "and", "or", "xor", "all", "some", "one", "loop"];

/// A leaf holds nothing, a constructor only leaves and flows: a constructor
/// never stands directly in another one.
fn can_hold_directly(outer: &str, inner: &str) -> bool {
    outer == "flow" || outer != "leaf" && (inner == "leaf" || inner == "flow")
}

/// Whatever a flow holds is also somewhere inside what holds the flow.
fn can_hold(outer: &str, _inner: &str) -> bool {
    outer != "leaf"
}

const DIRECTLY: &str = "directly in";
const INSIDE: &str = "inside";

fn nesting_titles(relation: &str, can_hold: fn(&str, &str) -> bool) -> Vec<String> {
    let pairs = KINDS.iter().flat_map(|outer| KINDS.iter().map(move |inner| (*outer, *inner)));
    let possible = pairs.filter(|(outer, inner)| can_hold(outer, inner));
    possible.map(|(outer, inner)| format!("{inner} {relation} {outer}")).collect()
}

const TRAITS: [&str; 21] = [
    "drawing with 512 events",
    "drawing with 768 copies",
    "drawing with 256 nodes",
    "drawing with 255 leaves",
    "drawing of depth 12",
    "drawing with three replicators around a node",
    "drawing with a size of 1",
    "drawing with a size of 16",
    "drawing with a loop over a leaf",
    "text of 16,384 bytes, accepted",
    "event with a name of 24 bytes",
    "leaf without values",
    "leaf of three values",
    "reset without values",
    "reset of three values",
    "value of 10 and more",
    "listing of over 8,192 bytes",
    "text with every node asked for",
    "text with some nodes asked for",
    "run of a drawing with remarks",
    "machine of a drawing with remarks",
];

const BUFFERS: [(&str, usize); 5] = [
    ("print", TEXT_LIMIT),
    ("translate", TABLE_LIMIT),
    ("list", LISTING_LIMIT),
    ("name", WORD_LIMIT),
    ("eventb", EVENTB_LIMIT),
];
const LENGTHS: [&str; 4] = ["empty", "short", "exact", "long"];
const OFFER_LENGTHS: [usize; 5] = [0, 63, 64, 65, 100];
const RECORD_LENGTHS: [usize; 5] = [0, 63, 64, 65, 128];

const SORTS: [&str; 4] = ["text", "run", "table", "machine"];
const EVENT_NUMBERS: [&str; 4] = ["below E", "at E", "past E", "2^32 and more"];

const TABLES: [&str; 12] = [
    "no damage",
    "a bit, still sound",
    "a bit, unsound",
    "bytes, still sound",
    "bytes, unsound",
    "cut",
    "longer",
    "sound table of 512 events",
    "sound table of 12,288 rows",
    "step on a sound table clears bits",
    "offer 1 by the buffer alone",
    "offer 1 by the record alone",
];

fn titles() -> Vec<String> {
    let answers = CALLS.iter().flat_map(|call| numbers_of(call).into_iter().map(move |number| title(call, number)));
    let buffers = BUFFERS.iter().flat_map(|(call, _)| LENGTHS.map(|length| format!("{call} buffer {length}")));
    let numbers = SORTS.iter().flat_map(|sort| EVENT_NUMBERS.map(|number| format!("{sort} event number {number}")));
    let plain = TRAITS.iter().chain(&REMARKS).chain(&SITUATIONS).chain(&WAYS).chain(&TABLES).chain(&MACHINES);
    answers
        .chain(nesting_titles(DIRECTLY, can_hold_directly))
        .chain(nesting_titles(INSIDE, can_hold))
        .chain(all_nestings())
        .chain(machine_nestings())
        .chain(buffers)
        .chain(OFFER_LENGTHS.map(|length| format!("offer buffer {length}")))
        .chain(RECORD_LENGTHS.map(|length| format!("record of {length}")))
        .chain(numbers)
        .chain(plain.map(|title| title.to_string()))
        .collect()
}

fn title(call: &str, number: u8) -> String {
    format!("{call} {number}")
}

// ---------------------------------------------------------------------------
// Texts
// ---------------------------------------------------------------------------

fn number_of<V>(answer: &Result<V, Refusal>) -> u8 {
    answer.as_ref().err().map_or(0, |refusal| refusal.0)
}

fn add_text(case: &TextCase, counts: &mut Counts) {
    let summary = read(&case.text);
    let number = number_of(&summary);
    let translated = if case.translate < TABLE_LIMIT { 1 } else { number };
    counts.add(&title("read", number));
    counts.add(&title("print", number_of(&print(&case.text, case.print))));
    counts.add(&title("translate", translated));
    counts.add(&title("list", number));
    add_remarks(&case.text, counts);
    case.nodes.iter().for_each(|index| add_index(&summary, *index, counts));
    let events = events(&case.text);
    add_answers(case, &events, counts);
    let lengths = [("print", case.print), ("translate", case.translate), ("list", case.list), ("name", case.name)];
    lengths.iter().for_each(|(call, length)| add_length(call, *length, counts));
    if let (Ok(summary), Ok(_)) = (&summary, &events) {
        add_drawing(&case.text, summary, &events, counts);
        let every_node = summary.nodes.len() < case.nodes.len();
        counts.add(if every_node { "text with every node asked for" } else { "text with some nodes asked for" });
    }
}

fn add_length(call: &str, length: usize, counts: &mut Counts) {
    let limit = BUFFERS.iter().find(|(other, _)| *other == call).expect("the call is lent a buffer").1;
    let kind = match length {
        0 => "empty",
        _ if length < limit => "short",
        _ if length == limit => "exact",
        _ => "long",
    };
    counts.add(&format!("{call} buffer {kind}"));
}

fn add_index(summary: &Result<Summary, Refusal>, index: u64, counts: &mut Counts) {
    let number = match summary {
        Ok(summary) if index < summary.nodes.len() as u64 => 0,
        Ok(_) => 255,
        Err((number, _)) => *number,
    };
    counts.add(&title("node", number));
    counts.add(&title("place", number));
}

fn add_answers(case: &TextCase, events: &Events, counts: &mut Counts) {
    for number in &case.events {
        let answer = number_of(&answer_in(events, *number));
        counts.add(&title("name", answer));
        counts.add(&title("values", answer));
        if let Ok(events) = events {
            add_event_number("text", *number, events.len(), counts);
        }
    }
}

fn add_event_number(sort: &str, number: u64, events: usize, counts: &mut Counts) {
    let kind = match number {
        _ if number < events as u64 => "below E",
        _ if number == events as u64 => "at E",
        _ if number < 1 << 32 => "past E",
        _ => "2^32 and more",
    };
    counts.add(&format!("{sort} event number {kind}"));
}

// ---------------------------------------------------------------------------
// Drawings
// ---------------------------------------------------------------------------

fn add_drawing(text: &[u8], summary: &Summary, events: &Events, counts: &mut Counts) {
    let nodes = &summary.nodes;
    let any = |holds: fn(&NodeInfo) -> bool| nodes.iter().any(holds);
    let leaves = nodes.iter().filter(|node| node.kind == Kind::Leaf).count();
    counts.add_if(summary.events == 512, "drawing with 512 events");
    counts.add_if(summary.copies == 768, "drawing with 768 copies");
    counts.add_if(nodes.len() == 256, "drawing with 256 nodes");
    counts.add_if(leaves == 255, "drawing with 255 leaves");
    counts.add_if(any(|node| node.depth == 12), "drawing of depth 12");
    counts.add_if(any(|node| size_of(node.kind) == Some(1)), "drawing with a size of 1");
    counts.add_if(any(|node| size_of(node.kind) == Some(16)), "drawing with a size of 16");
    let loop_over_leaf = |pair: &[NodeInfo]| pair[0].kind == Kind::Loop && pair[1].kind == Kind::Leaf;
    counts.add_if(nodes.windows(2).any(loop_over_leaf), "drawing with a loop over a leaf");
    counts.add_if(text.len() == TEXT_LIMIT, "text of 16,384 bytes, accepted");
    counts.add_if(listing(text).len() > 8_192, "listing of over 8,192 bytes");
    add_nestings(nodes, counts);
    nestings(nodes).into_iter().collect::<BTreeSet<_>>().iter().for_each(|title| counts.add(title));
    add_events(events, counts);
}

fn size_of(kind: Kind) -> Option<usize> {
    match kind {
        Kind::All(size) | Kind::Some(size) | Kind::One(size) => Some(size),
        _ => None,
    }
}

/// Once for each drawing: the pairs of kinds that stand in one another.
fn add_nestings(nodes: &[NodeInfo], counts: &mut Counts) {
    let mut directly = [[false; KINDS.len()]; KINDS.len()];
    let mut inside = directly;
    let mut replicators = 0;
    let mut above: Vec<&NodeInfo> = Vec::new();
    for node in nodes {
        above.truncate(node.depth - 1);
        let inner = kind_number(node.kind);
        above.iter().for_each(|outer| inside[kind_number(outer.kind)][inner] = true);
        above.last().iter().for_each(|outer| directly[kind_number(outer.kind)][inner] = true);
        replicators = replicators.max(above.iter().filter(|outer| size_of(outer.kind).is_some()).count());
        above.push(node);
    }
    counts.add_if(replicators == 3, "drawing with three replicators around a node");
    for (outer_number, outer) in KINDS.iter().enumerate() {
        for (inner_number, inner) in KINDS.iter().enumerate() {
            counts.add_if(directly[outer_number][inner_number], &format!("{inner} {DIRECTLY} {outer}"));
            counts.add_if(inside[outer_number][inner_number], &format!("{inner} {INSIDE} {outer}"));
        }
    }
}

/// Its place in KINDS.
fn kind_number(kind: Kind) -> usize {
    match kind {
        Kind::Flow => 0,
        Kind::Leaf => 1,
        Kind::And => 2,
        Kind::Or => 3,
        Kind::Xor => 4,
        Kind::All(_) => 5,
        Kind::Some(_) => 6,
        Kind::One(_) => 7,
        Kind::Loop => 8,
    }
}

/// Once for each drawing as well.
fn add_events(events: &Events, counts: &mut Counts) {
    let Ok(events) = events else { return };
    let any = |reset: bool, values: usize| {
        events.iter().any(|event| event.values.reset == reset && event.values.list.len() == values)
    };
    counts.add_if(events.iter().any(|event| event.name.len() == WORD_LIMIT), "event with a name of 24 bytes");
    counts.add_if(events.iter().any(|event| event.values.list.iter().any(|&value| value > 9)), "value of 10 and more");
    counts.add_if(any(false, 0), "leaf without values");
    counts.add_if(any(false, 3), "leaf of three values");
    counts.add_if(any(true, 0), "reset without values");
    counts.add_if(any(true, 3), "reset of three values");
}

// ---------------------------------------------------------------------------
// Runs and tables
// ---------------------------------------------------------------------------

fn add_run(case: &RunCase, counts: &mut Counts) {
    let diagram = Diagram::of(&case.text).expect("the drawing is accepted");
    let summary = read(&case.text).expect("the drawing is accepted");
    counts.add(&title("translate", 0));
    counts.add(&title("check", 0));
    case.calls.iter().for_each(|_| counts.add(&title("offer", 0)));
    for call in &case.calls {
        if let Call::Step(event) | Call::Update(event) = call {
            add_event_number("run", *event, diagram.events.len(), counts);
        }
    }
    add_drawing(&case.text, &summary, &events(&case.text), counts);
    counts.add_if(!remarks_in(&case.text).is_empty(), "run of a drawing with remarks");
    watch(&diagram, &case.calls, counts);
}

fn add_table(case: &TableCase, counts: &mut Counts) {
    let table = case.damaged();
    let sound = table::check(&table) == table::SOUND;
    counts.add(&title("check", table::check(&table)));
    counts.add(&title("finished", table::finished(&table, &case.record)));
    let offered = table::offer(&table, &case.record, &mut vec![0; case.offer]);
    counts.add(&title("offer", offered));
    counts.add_if(case.offer < RECORD_BYTES && case.record.len() == RECORD_BYTES, "offer 1 by the buffer alone");
    counts.add_if(case.offer >= RECORD_BYTES && case.record.len() != RECORD_BYTES, "offer 1 by the record alone");
    counts.add(&format!("offer buffer {}", case.offer));
    counts.add(&format!("record of {}", case.record.len()));
    counts.add(damage_title(&case.damage, sound));
    add_table_step(case, &table, counts);
    if sound {
        let field = |at: usize| usize::from(u16::from_be_bytes([table[at], table[at + 1]]));
        add_event_number("table", case.event, field(0), counts);
        counts.add_if(field(0) == table::MOST_EVENTS, "sound table of 512 events");
        counts.add_if(field(2) == table::MOST_ROWS, "sound table of 12,288 rows");
    }
}

/// The events of a machine are all asked for, whatever the numbers are.
fn add_eventb(case: &Asked, counts: &mut Counts) {
    let drawing = drawing_of(&case.text);
    add_length("eventb", case.length, counts);
    let remarked = drawing.is_ok() && !remarks_in(&case.text).is_empty();
    counts.add_if(remarked, "machine of a drawing with remarks");
    for number in &case.numbers {
        counts.add(&title("eventb", number_of(&asked(&drawing, *number, case.length))));
        if let Ok(diagram) = &drawing {
            add_event_number("machine", *number, diagram.events.len(), counts);
        }
    }
    add_machine(case, &drawing, counts);
}

fn add_table_step(case: &TableCase, table: &[u8], counts: &mut Counts) {
    let mut record = case.record.clone();
    let answer = table::step(table, &mut record, case.event);
    counts.add(&title("step", answer));
    counts.add_if(record.len() == RECORD_BYTES, &title("update", answer));
    let cleared = case.record.iter().zip(&record).any(|(before, after)| before & !after != 0);
    counts.add_if(cleared, "step on a sound table clears bits");
}

fn damage_title(damage: &[Damage], sound: bool) -> &'static str {
    match (damage.first(), sound) {
        (None, _) => "no damage",
        (Some(Damage::Bit(_)), true) => "a bit, still sound",
        (Some(Damage::Bit(_)), false) => "a bit, unsound",
        (Some(Damage::Byte(..)), true) => "bytes, still sound",
        (Some(Damage::Byte(..)), false) => "bytes, unsound",
        (Some(Damage::Cut(_)), _) => "cut",
        (Some(Damage::Longer(_)), _) => "longer",
    }
}

// ---------------------------------------------------------------------------
// The table that is printed
// ---------------------------------------------------------------------------

impl Display for Coverage {
    fn fmt(&self, out: &mut fmt::Formatter) -> fmt::Result {
        let numbers: Vec<String> = (0..=16).chain([255]).map(|number: u8| number.to_string()).collect();
        let numbers: Vec<&str> = numbers.iter().map(String::as_str).collect();
        writeln!(out, "\nanswers: 0 for what is no refusal, 255 for finished or an index past the nodes")?;
        self.matrix(out, &numbers, &CALLS, |number, call| format!("{call} {number}"))?;
        writeln!(out, "\ndrawings in which the kind of a row stands directly in that of a column")?;
        self.matrix(out, &KINDS, &KINDS, |inner, outer| format!("{inner} {DIRECTLY} {outer}"))?;
        writeln!(out, "\nthe same, somewhere inside")?;
        self.matrix(out, &KINDS, &KINDS, |inner, outer| format!("{inner} {INSIDE} {outer}"))?;
        writeln!(out, "\nthe same, no other constructor between; a loop over a leaf told apart")?;
        let inner = ["and", "or", "xor", "all", "some", "one", "loop", "leaf loop"];
        self.matrix(out, &inner, &inner[..7], |inner, outer| format!("{inner} in {outer}"))?;
        writeln!(out, "\nthe same in machines")?;
        let inner = ["and", "or", "xor", "loop", "leaf loop"];
        self.matrix(out, &inner, &inner[..4], |inner, outer| format!("machine with {inner} in {outer}"))?;
        writeln!(out, "\nbuffers")?;
        let calls = BUFFERS.map(|(call, _)| call);
        self.matrix(out, &LENGTHS, &calls, |length, call| format!("{call} buffer {length}"))?;
        writeln!(out, "\nevent numbers")?;
        self.matrix(out, &EVENT_NUMBERS, &SORTS, |number, sort| format!("{sort} event number {number}"))?;
        writeln!(out)?;
        let lengths = OFFER_LENGTHS.map(|length| format!("offer buffer {length}"));
        let records = RECORD_LENGTHS.map(|length| format!("record of {length}"));
        let traits = TRAITS.iter().chain(&REMARKS).chain(&SITUATIONS);
        let plain = traits.chain(&WAYS).chain(&TABLES).chain(&MACHINES).copied();
        let lines = plain.chain(lengths.iter().map(String::as_str)).chain(records.iter().map(String::as_str));
        for title in lines {
            writeln!(out, "{title:<50} {:>9}", self.counts.get(title).unwrap_or_default())?;
        }
        Ok(())
    }
}

impl Coverage {
    /// Counts in rows and columns; a dash where there can be none.
    fn matrix(
        &self,
        out: &mut fmt::Formatter,
        rows: &[&str],
        columns: &[&str],
        title: impl Fn(&str, &str) -> String,
    ) -> fmt::Result {
        write!(out, "{:<14}", "")?;
        columns.iter().try_for_each(|column| write!(out, " {column:>9}"))?;
        for row in rows {
            write!(out, "\n{row:<14}")?;
            for column in columns {
                let count = self.counts.get(&title(row, column));
                write!(out, " {:>9}", count.map_or("-".to_string(), |count| count.to_string()))?;
            }
        }
        writeln!(out)
    }
}
