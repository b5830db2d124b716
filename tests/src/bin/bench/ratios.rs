//! The table of ratios: each call on each input.

use crate::input::{Input, Kinds};
use crate::race::{lengths, rows, run, Call, Effort, Race, MACHINE_CALLS, TABLE_CALLS, TEXT_CALLS};
use reference::drawings::{machine_text, Machine};
use reference::eventb::MACHINE_EVENTS;
use reference::generate::{
    every_constructor, longest_drawing, many_copies, many_events, nested_flows, pad_between, root_with_leaves, Random,
    T,
};
use reference::remarks::leaves_with_remarks;
use reference::TEXT_LIMIT;

pub fn show(effort: Effort) {
    let texts = texts();
    let machines = machines();
    let tables = tables(&texts);
    let mut races: Vec<Race> = TEXT_CALLS.iter().flat_map(|call| races_of(*call, &texts)).collect();
    races.extend(MACHINE_CALLS.iter().flat_map(|call| races_of(*call, &machines)));
    races.extend(TABLE_CALLS.iter().flat_map(|call| races_of(*call, &tables)));
    run(&mut races, effort);
    println!("1. Ratios: the time of one proved call divided by that of the same call in Rust, and in plain C");
    println!(
        "\n{:<10} {:<28} {:>6} {:>6} {:>6} {:>6} {:>6} {:>11} {:>7} {:>10}  buffer",
        "call", "input", "bytes", "nodes", "copies", "events", "rows", "proved, ns", "/ Rust", "/ plain C"
    );
    races.iter().for_each(show_race);
    show_spans(&races);
    show_notes(effort);
    show_rows(&texts);
    show_lengths(&machines);
}

/// Each input with the buffer as the call before left it, and the largest
/// drawing once more with the buffer cleared.
fn races_of(call: Call, inputs: &[Input]) -> Vec<Race<'_>> {
    let mut races: Vec<Race> = inputs.iter().map(|input| Race::new(call, input, false)).collect();
    if call.buffer_length() > 0 {
        let largest = inputs.iter().filter(|input| [LARGEST, LARGEST_MACHINE].contains(&&*input.title));
        races.extend(largest.map(|input| Race::new(call, input, true)));
    }
    races
}

const LARGEST: &str = "768 copies";
const REMARKED: &str = "remarks on every line";
const LARGEST_MACHINE: &str = "32 events, deep ors";

fn texts() -> Vec<Input> {
    vec![
        Input::text("T", T),
        Input::text("every constructor", every_constructor()),
        Input::text("eleven nested flows", nested_flows(11)),
        Input::text("255 leaves", root_with_leaves(255)),
        Input::text("512 events", many_events(16)),
        Input::text(LARGEST, many_copies(8)),
        Input::text(REMARKED, leaves_with_remarks(64)),
        Input::text("16,384 bytes, few blanks", longest_drawing()),
        Input::text("16,384 bytes, 255 leaves", pad_between(root_with_leaves(255).as_bytes(), TEXT_LIMIT)),
        Input::text("16,384 bytes, 768 copies", pad_between(many_copies(8).as_bytes(), TEXT_LIMIT)),
    ]
}

/// Drawings that have a machine. The second is at its limit: down to depth 12
/// one constructor is in the other, and the last event has the longest text, as
/// it is to say when all of them are complete.
fn machines() -> Vec<Input> {
    let nested = machine_text(Machine::Nested(MACHINE_EVENTS), &mut Random::new(1));
    vec![Input::text("T", T), Input::text(LARGEST_MACHINE, nested)]
}

/// Those of the drawings, but for blanks and remarks, which no table shows; and
/// made ones.
fn tables(texts: &[Input]) -> Vec<Input> {
    let drawings = texts.iter().filter(|text| text.bytes.len() < TEXT_LIMIT && text.title != REMARKED);
    let mut tables: Vec<Input> = drawings.map(Input::table_of).collect();
    tables.extend([
        Input::made_table("made, 1 row", 1, 1, Kinds::Random),
        Input::made_table("made, kinds at random", 16, 64, Kinds::Random),
        Input::made_table("made, kinds at random", 512, 12_288, Kinds::Random),
        Input::made_table("made, kinds 0 1 2 3 in turn", 512, 12_288, Kinds::InTurn),
        Input::made_table("made, chains of 64 rows", 512, 12_288, Kinds::Chains),
    ]);
    tables
}

fn show_race(race: &Race) {
    let Input { title, bytes, nodes, copies, events, rows, .. } = race.input;
    let proved = race.best[0];
    let known = |size: &Option<usize>| size.map_or("-".to_string(), |size| size.to_string());
    println!(
        "{:<10} {title:<28} {:>6} {:>6} {:>6} {events:>6} {rows:>6} {proved:>11.0} {:>7} {:>10}  {}",
        race.call.title(),
        bytes.len(),
        known(nodes),
        known(copies),
        shown_ratio(race, 1),
        shown_ratio(race, 2),
        buffer(race)
    );
}

/// None where the other does not have the call.
fn ratio(race: &Race, other: usize) -> Option<f64> {
    race.best.get(other).map(|time| race.best[0] / time)
}

fn shown_ratio(race: &Race, other: usize) -> String {
    ratio(race, other).map_or("-".to_string(), |ratio| format!("{ratio:.2}"))
}

fn buffer(race: &Race) -> &'static str {
    match (race.call, race.call.buffer_length()) {
        (Call::Step, _) => "record set anew",
        (_, 0) => "none",
        _ if race.cleared => "cleared",
        _ => "not cleared",
    }
}

fn show_spans(races: &[Race]) {
    println!("\nFrom the least to the greatest ratio");
    for call in TEXT_CALLS.iter().chain(&MACHINE_CALLS).chain(&TABLE_CALLS) {
        println!("{:<10} {} of Rust, {} of plain C", call.title(), span(races, *call, 1), span(races, *call, 2));
    }
}

/// The least and the greatest ratio of a call.
fn span(races: &[Race], call: Call, other: usize) -> String {
    let ratios = races.iter().filter(|race| race.call == call).filter_map(|race| ratio(race, other));
    match ratios.fold((f64::INFINITY, 0.0), |(a, b), ratio| (ratio.min(a), ratio.max(b))) {
        (f64::INFINITY, _) => format!("{:>14}", "-"),
        (least, greatest) => format!("{least:>5.2} to {greatest:>5.2}"),
    }
}

fn show_notes(effort: Effort) {
    println!(
        "
All of one run, on the same input; best of {} rounds each, which take turns. A ratio under 1 means that the proved call
is faster. Times are for information: they are those of this machine.
Rust: reading and the table calls are the reference's (tests/src/lib.rs, table.rs); the others are plain Rust after the
reference's reader that writes to the lent buffer (plain.rs, plain_listing.rs). Plain C: tests/c/plain*.c, gcc -O3.
Eventb is the Event-B text of an event. In Rust it is written to strings, after the reference's meaning of the drawing,
and then copied to the lent buffer (plain_eventb.rs): plainly, and not made to be fast. In C it is not written: -.
Buffer: whether the lent buffer is cleared before each call, within the time of all that are timed, or is as the call
before left it. A step finds the same record at each call: setting its 64 bytes is within the time of all three.
Name, values and eventb are asked for the last event. Tables of drawings are the proved translation's, with a record
from the middle of a run, and the step's event is one that is taken there. Bytes are those of the text, for the last
four calls those of the table.",
        effort.passes * effort.rounds
    );
}

fn show_rows(texts: &[Input]) {
    println!("\nRows, which are each translation's own choice: {:>17} {:>7} {:>7}", "proved", "Rust", "plain C");
    for text in texts {
        let [proved, rust, c] = rows(text);
        println!("    {:<50} {proved:>9} {rust:>7} {c:>7}", text.title);
    }
}

fn show_lengths(machines: &[Input]) {
    println!("\nBytes of the event's text, whose guards are each writer's own choice: {:>7} {:>7}", "proved", "Rust");
    for text in machines {
        let shown: String = lengths(text).iter().map(|length| format!(" {length:>7}")).collect();
        println!("    {:<65}{shown}", text.title);
    }
}
