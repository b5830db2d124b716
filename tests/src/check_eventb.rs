//! The reader and player of Event-B text, on texts written by hand for T and U
//! of document 01 and on damaged ones; and the comparison of a writer with the
//! reference, which the plain writer passes and writers with a slip do not.

use crate::drawings::{accepted_text, machine_text, Machine as Plan, Size};
use crate::eventb::compare::{held, machine_of, numbers_difference, records_difference, Asked, Call};
use crate::eventb::machine::Machine;
use crate::eventb::text::{read_event, read_machine, EventText, Formula, Joint, MachineText, Part};
use crate::eventb::{drawing_of, event_fault, machine_fault, variables, EVENTB_LIMIT};
use crate::generate::{edge_texts, every_constructor, many_copies, many_events, random_text, root, Random, T, U};
use crate::kit::refusal_number;
use crate::meaning::{Book, Diagram};
use crate::plain_eventb::{eventb, plain_event, written, Ways, RIGHT};
use crate::{read, Refusal};

// ---------------------------------------------------------------------------
// Texts written by hand
// ---------------------------------------------------------------------------

const T_MACHINE: &str = "machine trip\nvariables\nv_take\nv_fill\nv_send\nv_drop\nv_free\ninvariants\n\
    @inv_1 v_take : BOOL\n@inv_2 v_fill : BOOL\n@inv_3 v_send : BOOL\n@inv_4 v_drop : BOOL\n@inv_5 v_free : BOOL\n\
    events\nevent INITIALISATION\nthen\n@act_1 v_take := FALSE\n@act_2 v_fill := FALSE\n@act_3 v_send := FALSE\n\
    @act_4 v_drop := FALSE\n@act_5 v_free := FALSE\nend\n\
    event v_take\nwhere\n@grd_1 v_take = FALSE\nthen\n@act_1 v_take := TRUE\nend\n\
    event v_fill\nwhere\n@grd_1 v_take = TRUE\n@grd_2 (v_send = FALSE & v_drop = FALSE)\n@grd_3 v_free = FALSE\n\
    then\n@act_1 v_fill := TRUE\nend\n\
    event v_send\nwhere\n@grd_1 v_take = TRUE\n@grd_2 v_drop = FALSE\n@grd_3 v_send = FALSE\n\
    then\n@act_1 v_send := TRUE\nend\n\
    event v_drop\nwhere\n@grd_1 ((v_take = TRUE & v_send = FALSE) & v_drop = FALSE)\n\
    then\n@act_1 v_drop := TRUE\nend\n\
    event v_free\nwhere\n@grd_1 (v_send = TRUE or v_drop = TRUE)\n@grd_2 v_free = FALSE\n\
    then\n@act_1 v_free := TRUE\nend\nend\n";

const U_MACHINE: &str = "machine t\nvariables\nv_a\nv_b\nr_r\nv_c\ninvariants\n\
    @inv_1 v_a : BOOL\n@inv_2 v_b : BOOL\n@inv_3 r_r : BOOL\n@inv_4 v_c : BOOL\n\
    events\nevent INITIALISATION\nthen\n\
    @act_1 v_a := FALSE\n@act_2 v_b := FALSE\n@act_3 r_r := FALSE\n@act_4 v_c := FALSE\nend\n\
    event v_a\nwhere\n@grd_1 v_c = FALSE\n@grd_2 v_a = FALSE\nthen\n@act_1 v_a := TRUE\nend\n\
    event v_b\nwhere\n@grd_1 v_c = FALSE\n@grd_2 v_a = TRUE\n@grd_3 v_b = FALSE\nthen\n@act_1 v_b := TRUE\nend\n\
    event r_r\nwhere\n@grd_1 v_c = FALSE\n@grd_2 v_b = TRUE\n\
    then\n@act_1 r_r := TRUE\n@act_2 v_a := FALSE\n@act_3 v_b := FALSE\nend\n\
    event v_c\nwhere\n@grd_1 ((v_a = FALSE & v_b = FALSE) or (v_a = TRUE & v_b = TRUE))\n@grd_2 v_c = FALSE\n\
    then\n@act_1 v_c := TRUE\nend\nend\n";

/// More records than any drawing here has.
const ALL_RECORDS: usize = 100_000;

fn drawing(text: &str) -> Diagram {
    drawing_of(text.as_bytes()).expect("the drawing has a machine")
}

fn read_whole(text: &str) -> MachineText {
    read_machine(text.as_bytes()).expect("the machine can be read")
}

#[test]
fn machines_written_by_hand() {
    for (text, name, written) in [(T, "trip", T_MACHINE), (U, "t", U_MACHINE)] {
        let (diagram, read) = (drawing(text), read_whole(written));
        assert_eq!(machine_fault(&diagram, name, &read), None);
        let mut machine = Machine::new(&read.variables, &read.events).expect("all variables are known");
        assert_eq!(records_difference(&mut machine, &diagram, ALL_RECORDS), None);
        for (event, place) in read.places.iter().enumerate() {
            assert_eq!(read_event(&written.as_bytes()[place.clone()]).as_ref(), Ok(&read.events[event]));
        }
    }
}

#[test]
fn what_is_read_of_an_event() {
    let read = &read_whole(U_MACHINE).events[2];
    let is = |name: &str, value| Part::Is(name.to_string(), value);
    assert_eq!(read.name, "r_r");
    assert_eq!(read.guards, [Formula(vec![is("v_c", false)]), Formula(vec![is("v_b", true)])]);
    let actions: Vec<String> = read.actions.iter().map(|action| action.to_string()).collect();
    assert_eq!(actions, ["r_r := TRUE", "v_a := FALSE", "v_b := FALSE"]);
    let both = |left, right| vec![left, right, Part::Joint(Joint::Both)];
    let sides = [both(is("v_a", false), is("v_b", false)), both(is("v_a", true), is("v_b", true))];
    let either = [&sides.concat()[..], &[Part::Joint(Joint::Either)]].concat();
    assert_eq!(read_whole(U_MACHINE).events[3].guards[0], Formula(either));
}

// ---------------------------------------------------------------------------
// Damaged texts
// ---------------------------------------------------------------------------

/// An event with brackets, both joints, and a cleared variable.
const ROUND: &str = "event r_r\nwhere\n@grd_1 (v_c = FALSE or (v_a = TRUE & v_b = FALSE))\n@grd_2 v_b = TRUE\n\
    then\n@act_1 r_r := TRUE\n@act_2 v_a := FALSE\n@act_3 v_b := FALSE\nend\n";

/// What is put in the place of what.
const DAMAGES: &[(&str, &str)] = &[
    ("event r_r", "event"),
    ("event r_r", "event  r_r"),
    ("event r_r", "Event r_r"),
    ("event r_r", " event r_r"),
    ("event r_r", "event r"),
    ("event r_r", "event r_"),
    ("event r_r", "event r_9"),
    ("event r_r", "event r_leaf"),
    ("event r_r", "event w_r"),
    ("event r_r", "event r_a_name_of_25_bytes_in_all_"),
    ("event r_r\n", "event r_r \n"),
    ("event r_r\n", "event r_r\r\n"),
    ("where\n", ""),
    ("where\n", "where\n\n"),
    ("where\n", "when\n"),
    ("@grd_1", "@grd_0"),
    ("@grd_1", "@grd_01"),
    ("@grd_1", "@grd1"),
    ("@grd_1", "grd_1"),
    ("@grd_1", " @grd_1"),
    ("@grd_1", "\t@grd_1"),
    ("@grd_2", "@grd_1"),
    ("@grd_2", "@grd_3"),
    ("@grd_2", "@act_1"),
    ("@grd_1 ", "@grd_1  "),
    ("@grd_1 ", "@grd_1: "),
    ("@grd_2 v_b = TRUE\n", "@grd_2 \n"),
    ("@grd_2 v_b = TRUE\n", "@grd_2 v_b\n"),
    ("@grd_2 v_b = TRUE\n", "@grd_2 TRUE\n"),
    ("@grd_2 v_b = TRUE\n", "@grd_2 v_b = TRUE & v_a = TRUE\n"),
    ("@grd_2 v_b = TRUE\n", "@grd_2 (v_b = TRUE)\n"),
    ("@grd_2 v_b = TRUE\n", "@grd_2 v_b = TRUE"),
    ("@grd_2 v_b = TRUE\n", "@grd_2 v_b = TRUE\n@grd_4 v_b = TRUE\n"),
    ("v_c = FALSE or", "v_c = false or"),
    ("v_c = FALSE or", "v_c = FALSEor"),
    ("v_c = FALSE or", "v_c = FALSE  or"),
    ("v_c = FALSE or", "v_c=FALSE or"),
    ("v_c = FALSE or", "v_c != FALSE or"),
    ("v_c = FALSE or", "not(v_c = FALSE) or"),
    ("v_c = FALSE or", "c = FALSE or"),
    (" or ", " xor "),
    (" or ", " OR "),
    (" & ", " and "),
    (" & ", "&"),
    ("v_b = FALSE))", "v_b = FALSE)"),
    ("v_b = FALSE))", "v_b = FALSE)))"),
    ("v_b = FALSE))", "v_b = FALSE & v_a = TRUE))"),
    ("(v_c", "( v_c"),
    ("(v_c", "((v_c"),
    ("(v_c", "v_c"),
    ("then\n", ""),
    ("then\n", "then \n"),
    ("@act_1", "@act_0"),
    ("@act_3", "@act_2"),
    ("@act_1 r_r := TRUE", "@act_1 r_r = TRUE"),
    ("@act_1 r_r := TRUE", "@act_1 r_r :=TRUE"),
    ("@act_1 r_r := TRUE", "@act_1 r_r := BOOL"),
    ("@act_1 r_r := TRUE\n@act_2 v_a := FALSE\n@act_3 v_b := FALSE\n", ""),
    ("\nend\n", "\nend"),
    ("\nend\n", "\nend\n\n"),
    ("\nend\n", "\nEND\n"),
    ("\nend\n", "\nend\nend\n"),
    ("\nend\n", "\n"),
];

#[test]
fn damaged_events_are_not_read() {
    assert!(read_event(ROUND.as_bytes()).is_ok());
    for (from, to) in DAMAGES {
        assert!(ROUND.contains(from), "{from:?}");
        let damaged = ROUND.replacen(from, to, 1);
        assert!(read_event(damaged.as_bytes()).is_err(), "{damaged}");
    }
    let no_guard = "event v_a\nwhere\nthen\n@act_1 v_a := TRUE\nend\n";
    for text in ["", "\n", "end\n", no_guard, &ROUND.repeat(2)] {
        assert!(read_event(text.as_bytes()).is_err(), "{text}");
    }
}

/// The same; what comes out can be read.
const OTHERS: &[(&str, &str)] = &[
    ("event r_r", "event v_r"),
    ("event r_r", "event v_a"),
    ("@act_1 r_r := TRUE", "@act_1 r_r := FALSE"),
    ("@act_1 r_r := TRUE", "@act_1 v_c := TRUE"),
    ("@act_2 v_a := FALSE", "@act_2 v_a := TRUE"),
    ("@act_2 v_a := FALSE\n@act_3 v_b := FALSE", "@act_2 v_b := FALSE\n@act_3 v_a := FALSE"),
    ("@act_1 r_r := TRUE\n@act_2 v_a := FALSE", "@act_1 v_a := FALSE\n@act_2 r_r := TRUE"),
    ("\n@act_3 v_b := FALSE", ""),
    ("\n@act_2 v_a := FALSE\n@act_3 v_b := FALSE", ""),
    ("@act_3 v_b := FALSE", "@act_3 v_b := FALSE\n@act_4 v_c := FALSE"),
    ("@grd_2 v_b", "@grd_2 v_d"),
    ("@grd_2 v_b", "@grd_2 v_B"),
    ("@grd_2 v_b", "@grd_2 r_b"),
    ("@grd_2 v_b", "@grd_2 v_r"),
];

/// Texts that can be read, but are not those of the reset of U.
#[test]
fn other_events_are_told() {
    let diagram = drawing(U);
    let fault = |text: &str| {
        let read = read_event(text.as_bytes()).expect("the text can be read");
        event_fault(&diagram, 2, &read).or_else(|| Machine::new(&variables(&diagram), &[read]).err())
    };
    assert_eq!(fault(ROUND), None);
    for (from, to) in OTHERS {
        assert!(ROUND.contains(from), "{from:?}");
        assert_ne!(fault(&ROUND.replacen(from, to, 1)), None, "{to}");
    }
}

/// The same in the machine of U.
const MACHINE_DAMAGES: &[(&str, &str)] = &[
    ("machine t\n", ""),
    ("machine t\n", "machine r\n"),
    ("machine t\n", "machine v_t\n"),
    ("machine t\n", "machine t \n"),
    ("variables\n", ""),
    ("v_a\nv_b\n", "v_b\nv_a\n"),
    ("v_a\nv_b\n", "v_a v_b\n"),
    ("v_a\nv_b\n", "v_a\n"),
    ("\ninvariants\n", "\n"),
    ("@inv_1 ", "@inv_0 "),
    ("@inv_2 v_b : BOOL\n", ""),
    ("@inv_2 v_b : BOOL\n", "@inv_2 v_a : BOOL\n"),
    ("v_b : BOOL", "v_b: BOOL"),
    ("v_b : BOOL", "v_b : bool"),
    ("events\n", ""),
    ("event INITIALISATION\n", ""),
    ("event INITIALISATION\nthen\n", "event INITIALISATION\nwhere\nthen\n"),
    ("event INITIALISATION", "event INITIALIZATION"),
    ("@act_2 v_b := FALSE\n", "@act_2 v_b := TRUE\n"),
    ("@act_4 v_c := FALSE\n", ""),
    ("v_c := FALSE\nend\n", "v_c := FALSE\n"),
    ("v_a := TRUE\nend\n", "v_a := TRUE\nend\n\n"),
    ("v_c := TRUE\nend\nend\n", "v_c := TRUE\nend\n"),
    ("v_c := TRUE\nend\nend\n", "v_c := TRUE\nend\nend"),
    ("v_c := TRUE\nend\nend\n", "v_c := TRUE\nend\nend\nend\n"),
];

#[test]
fn damaged_machines_are_not_taken() {
    let diagram = drawing(U);
    let fault = |text: &str| match read_machine(text.as_bytes()) {
        Ok(read) => machine_fault(&diagram, "t", &read).or_else(|| Machine::new(&read.variables, &read.events).err()),
        Err(fault) => Some(fault),
    };
    assert_eq!(fault(U_MACHINE), None);
    for (from, to) in MACHINE_DAMAGES {
        assert!(U_MACHINE.contains(from), "{from:?}");
        assert_ne!(fault(&U_MACHINE.replacen(from, to, 1)), None, "{from:?} as {to:?}");
    }
    let pieces: Vec<&str> = read_whole(U_MACHINE).places.iter().map(|place| &U_MACHINE[place.clone()]).collect();
    let swapped = [pieces[0], pieces[1]].concat();
    assert_ne!(fault(&U_MACHINE.replacen(&swapped, &[pieces[1], pieces[0]].concat(), 1)), None);
    assert_ne!(fault(&U_MACHINE.replacen(pieces[3], "", 1)), None);
}

/// The only text of an event that says this.
fn written_again(event: &EventText) -> String {
    let mut lines = format!("event {}\nwhere\n", event.name);
    for (at, Formula(parts)) in event.guards.iter().enumerate() {
        let mut sides: Vec<String> = Vec::new();
        for part in parts {
            let side = match part {
                Part::Is(variable, value) => format!("{variable} = {}", value.to_string().to_uppercase()),
                Part::Joint(joint) => {
                    let (right, left) = (sides.pop().expect("a side"), sides.pop().expect("a side"));
                    format!("({left} {} {right})", if *joint == Joint::Both { "&" } else { "or" })
                }
            };
            sides.push(side);
        }
        lines += &format!("@grd_{} {}\n", at + 1, sides.concat());
    }
    lines += "then\n";
    for (at, action) in event.actions.iter().enumerate() {
        lines += &format!("@act_{} {} := {}\n", at + 1, action.variable, action.value.to_string().to_uppercase());
    }
    lines + "end\n"
}

/// Whatever is read has but one text: no byte can be another or be too much.
#[test]
fn every_byte_is_looked_at() {
    let assert_only = |text: &[u8]| {
        if let Ok(read) = read_event(text) {
            assert_eq!(written_again(&read).as_bytes(), text);
        }
    };
    let good = ROUND.as_bytes();
    assert_eq!(written_again(&read_event(good).expect("it is an event")), ROUND);
    for at in 0..good.len() {
        for byte in 0..=255 {
            assert_only(&[&good[..at], &[byte], &good[at + 1..]].concat());
            assert_only(&[&good[..at], &[byte], &good[at..]].concat());
        }
        assert_only(&good[..at]);
        assert_only(&[&good[..at], &good[at + 1..]].concat());
        assert!(read_event(&good[..at]).is_err());
    }
}

/// Brackets as deep as a text has room for are read and evaluated.
#[test]
fn deep_brackets() {
    let levels = 4_000;
    let left = format!("{}v_a = FALSE{}", "(".repeat(levels), " & v_a = FALSE)".repeat(levels));
    let right = format!("{}v_a = FALSE{}", "(v_a = FALSE & ".repeat(levels), ")".repeat(levels));
    for guard in [left, right] {
        let text = format!("event v_a\nwhere\n@grd_1 {guard}\nthen\n@act_1 v_a := TRUE\nend\n");
        let event = read_event(text.as_bytes()).expect("it is an event");
        let mut machine = Machine::new(&["v_a".to_string()], &[event]).expect("the variable is known");
        assert!(machine.may_take(0));
        machine.take(0);
        assert!(!machine.may_take(0));
    }
    assert!(read_event(format!("event v_a\nwhere\n@grd_1 {}", "(".repeat(EVENTB_LIMIT)).as_bytes()).is_err());
}

// ---------------------------------------------------------------------------
// What is turned away
// ---------------------------------------------------------------------------

fn answer(text: &[u8], event: u64, length: usize) -> Result<usize, Refusal> {
    crate::eventb::asked(&drawing_of(text), event, length).map(|(_, event)| event)
}

#[test]
fn refusals_in_their_order() {
    let exactly = |events| machine_text(Plan::Exactly(events), &mut Random::new(3));
    let size_1 = root("all(v:1)(leaf(a))(0)leaf(b)(1)").into_bytes();
    for (text, event, length, wanted) in [
        (T.as_bytes(), 4, EVENTB_LIMIT, Ok(4)),
        (T.as_bytes(), 5, EVENTB_LIMIT, Err((14, 0))),
        (T.as_bytes(), u64::MAX, EVENTB_LIMIT + 1, Err((14, 0))),
        (T.as_bytes(), 1 << 32, EVENTB_LIMIT, Err((14, 0))),
        (T.as_bytes(), 0, EVENTB_LIMIT - 1, Err((1, 0))),
        (T.as_bytes(), 5, 0, Err((1, 0))),
        (b"!", 0, EVENTB_LIMIT - 1, Err((1, 0))),
        (b"!", 0, EVENTB_LIMIT, Err((3, 0))),
        (b"flow(", 9, EVENTB_LIMIT, Err((5, 5))),
        (&exactly(32), 31, EVENTB_LIMIT, Ok(31)),
        (&exactly(32), 32, EVENTB_LIMIT, Err((14, 0))),
        (&exactly(33), 32, EVENTB_LIMIT, Err((16, 0))),
        (&exactly(33), 33, EVENTB_LIMIT, Err((16, 0))),
        (&exactly(33), 0, EVENTB_LIMIT - 1, Err((1, 0))),
        (&size_1, 0, EVENTB_LIMIT, Err((16, 0))),
        (&size_1, 2, EVENTB_LIMIT, Err((16, 0))),
        (every_constructor().as_bytes(), u64::MAX, EVENTB_LIMIT, Err((16, 0))),
        (many_events(16).as_bytes(), 0, EVENTB_LIMIT, Err((16, 0))),
        (many_events(17).as_bytes(), 0, EVENTB_LIMIT, Err((11, 0))),
        (many_copies(9).as_bytes(), 0, EVENTB_LIMIT, Err((11, 0))),
    ] {
        assert_eq!(answer(text, event, length), wanted, "event {event} of b\"{}\"", text.escape_ascii());
        let numbers = [event, 0, u64::MAX];
        assert_eq!(numbers_difference(text, &numbers, length, eventb), None, "b\"{}\"", text.escape_ascii());
    }
}

// ---------------------------------------------------------------------------
// Writers
// ---------------------------------------------------------------------------

/// So many generated texts are asked for.
const CASES: u64 = 1_500;

/// A generated text, mostly with a machine, and a run that goes on where it can.
fn generated(seed: u64) -> Asked {
    let random = &mut Random::new(seed);
    let text = match random.below(20) {
        0..=9 => machine_text(Plan::UpTo(random.within(1, 20)), random),
        10..=11 => machine_text(Plan::Exactly(32), random),
        12..=13 => machine_text(Plan::Deep(32), random),
        14 => machine_text(Plan::Exactly(33), random),
        15 => machine_text(Plan::Nested(32), random),
        16 => accepted_text(Size::Small(8), random),
        17 => random_text(seed),
        _ => machine_text(Plan::UpTo(8), random),
    };
    let length = *random.pick(&[0, EVENTB_LIMIT - 1, EVENTB_LIMIT, EVENTB_LIMIT, EVENTB_LIMIT + 9]);
    let run = drawing_of(&text).map_or(Vec::new(), |diagram| random_run(&diagram, random));
    Asked { text, length, numbers: vec![0, 1, 31, 32, 33, u64::MAX], run }
}

fn random_run(diagram: &Diagram, random: &mut Random) -> Vec<u64> {
    let mut book = Book::new(diagram);
    for _ in 0..random.within(5, 60) {
        let next = book.next();
        if next.is_empty() {
            break;
        }
        let last = next[next.len() - 1];
        let event = if random.once_in(3) { last } else { *random.pick(&next) };
        book.step(event as u64);
    }
    book.taken().iter().map(|event| *event as u64).collect()
}

#[test]
fn the_plain_writer_is_right() {
    let (mut machines, mut longest) = (0, 0);
    for seed in 0..CASES {
        let asked = generated(seed);
        let length = held(&asked, eventb).unwrap_or_else(|difference| panic!("{asked:?}: {difference}"));
        machines += usize::from(length > 0);
        longest = longest.max(length);
    }
    println!("{machines} machines, the longest text has {longest} bytes");
    assert!(machines > CASES as usize / 2, "only {machines} machines");
    assert!(longest <= EVENTB_LIMIT && longest > 8_000, "the longest text has {longest} bytes");
}

/// Small drawings, at every record that a run can reach.
#[test]
fn the_plain_writer_is_right_at_all_records() {
    let fixed = [T.to_string(), U.to_string()].into_iter().chain(slips()).map(String::into_bytes);
    let random = (0..400).map(|seed| machine_text(Plan::UpTo(9), &mut Random::new(seed)));
    for text in fixed.chain(random) {
        let made = machine_of(&text, eventb).expect("the writer is right").expect("the drawing has a machine");
        let (mut machine, diagram) = (made.machine, made.diagram);
        let difference = records_difference(&mut machine, &diagram, ALL_RECORDS);
        assert_eq!(difference, None, "b\"{}\"", text.escape_ascii());
    }
}

/// Drawings in which document 01's slips show.
fn slips() -> Vec<String> {
    vec![
        root("xor(flow(p,1)(loop(flow(r,1)(leaf(a)(1)))(0)leaf(b)(1))leaf(c))(1)"),
        root("or(flow(p,1)(leaf(a)(0)leaf(b)(1))leaf(c))(0)leaf(d)(1)"),
        root("or(leaf(a)leaf(b))(0)leaf(c)(1)"),
        root("loop(flow(o,1)(loop(flow(i,1)(leaf(a)(1)))(0)leaf(b)(1)))(0)leaf(c)(1)"),
        root("leaf(c)(1)loop(flow(r,1)(leaf(a)(0)leaf(b)(1)))(0)"),
    ]
}

/// Texts of all sorts are turned away as by the reference.
#[test]
fn the_plain_writer_turns_away() {
    for text in edge_texts().iter().step_by(7) {
        let numbers = [0, 32, u64::MAX];
        let difference = numbers_difference(text, &numbers, EVENTB_LIMIT, eventb);
        assert_eq!(difference, None, "b\"{}\"", text.escape_ascii());
    }
}

/// What is told of the first generated text at which the writer differs.
fn told(call: Call) -> String {
    let mut differences = (0..CASES).filter_map(|seed| held(&generated(seed), call).err());
    differences.next().expect("the writer is wrong")
}

#[test]
fn slips_of_writers_are_found() {
    let slips: [(Call, &str); 6] = [
        (|text, event, out| written(Ways { all_later_children: false, ..RIGHT }, text, event, out), "the guards of"),
        (|text, event, out| written(Ways { members_halfway: false, ..RIGHT }, text, event, out), "the guards of"),
        (|text, event, out| written(Ways { clears: false, ..RIGHT }, text, event, out), ":= TRUE, should do r_"),
        (|text, event, out| written(Ways { first_guard: 0, ..RIGHT }, text, event, out), "should be @grd_1 , is"),
        (|text, event, out| written(Ways { most_events: 33, ..RIGHT }, text, event, out), "should be refusal 16 at 0"),
        (|text, event, out| written(Ways { refuses_quietly: false, ..RIGHT }, text, event, out), "and the buffer"),
    ];
    for (call, words) in slips {
        let told = told(call);
        assert!(told.contains(words), "{told}");
    }
}

/// Writers that look at things in another order, or let in what is outside.
#[test]
fn wrong_refusals_are_found() {
    let text_first: Call = |text, event, out| match drawing_of(text) {
        Err(refusal) => refusal_number(refusal),
        Ok(_) => eventb(text, event, out),
    };
    let number_first: Call = |text, event, out| match read(text) {
        Ok(summary) if event >= summary.events as u64 && out.len() >= EVENTB_LIMIT => 14 << 32,
        _ => eventb(text, event, out),
    };
    let size_1: Call = |text, event, out| match eventb(text, event, out) {
        answer if answer == 16 << 32 && text.windows(3).any(|word| word == b":1)") => 40,
        answer => answer,
    };
    let short_by_one: Call = |text, event, out| {
        let mut longer = [&*out, b"\n"].concat();
        let answer = eventb(text, event, &mut longer);
        out.copy_from_slice(&longer[..out.len()]);
        answer
    };
    let lost_bits: Call = |text, event, out| eventb(text, event & 0xFFFF_FFFF, out);
    let no_place: Call = |text, event, out| match eventb(text, event, out) {
        answer if answer >> 32 == 0 => answer,
        answer => answer >> 32 << 32,
    };
    for call in [text_first, number_first, size_1, short_by_one, no_place] {
        let told = told(call);
        assert!(told.contains("the answer is"), "{told}");
    }
    assert_ne!(numbers_difference(T.as_bytes(), &[1 << 32], EVENTB_LIMIT, lost_bits), None);
}

/// Writers that are wrong in the very answer or in bytes past what they wrote.
#[test]
fn stray_bytes_and_lengths_are_found() {
    let longer: Call = |text, event, out| eventb(text, event, out) + 1;
    let shorter: Call = |text, event, out| eventb(text, event, out).saturating_sub(1);
    let stray: Call = |text, event, out| {
        let answer = eventb(text, event, out);
        out.last_mut().into_iter().for_each(|last| *last = b'\n');
        answer
    };
    let last_missing: Call = |text, event, out| match plain_event(RIGHT, text, event) {
        Ok(_) if out.len() >= EVENTB_LIMIT => {
            let length = eventb(text, event, out);
            out[length as usize - 1] = b' ';
            length
        }
        _ => eventb(text, event, out),
    };
    let never: Call = |_, _, _| 16 << 32;
    for call in [longer, shorter, stray, last_missing, never] {
        told(call);
    }
}
