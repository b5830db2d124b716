//! One call on one input, by the proved library, Rust and plain C in turn.

use crate::input::{events_of, rows_of, Input, Record};
use reference::eventb::text::read_event;
use reference::eventb::{drawing_of, event_fault, EVENTB_LIMIT};
use reference::listing::LISTING_LIMIT;
use reference::plain::calls::{Calls, C, PROVED, RUST};
use reference::plain::TABLE_LIMIT;
use reference::table::{self, RECORD_BYTES};
use reference::{TEXT_LIMIT, WORD_LIMIT};
use std::hint::black_box;
use std::time::{Duration, Instant};

static RUNNERS: [&Calls; 3] = [&PROVED, &RUST, &C];

#[derive(Clone, Copy, PartialEq)]
pub enum Call {
    Read,
    Print,
    Translate,
    List,
    Name,
    Values,
    Eventb,
    Check,
    Step,
    Offer,
    Finished,
}

pub const TEXT_CALLS: [Call; 6] = [Call::Read, Call::Print, Call::Translate, Call::List, Call::Name, Call::Values];
/// Only for drawings that have a machine.
pub const MACHINE_CALLS: [Call; 1] = [Call::Eventb];
pub const TABLE_CALLS: [Call; 4] = [Call::Check, Call::Step, Call::Offer, Call::Finished];

impl Call {
    pub fn title(self) -> &'static str {
        match self {
            Call::Read => "read",
            Call::Print => "print",
            Call::Translate => "translate",
            Call::List => "list",
            Call::Name => "name",
            Call::Values => "values",
            Call::Eventb => "eventb",
            Call::Check => "check",
            Call::Step => "step",
            Call::Offer => "offer",
            Call::Finished => "finished",
        }
    }

    /// The length of the buffer that the call writes to, 0 if there is none.
    pub fn buffer_length(self) -> usize {
        match self {
            Call::Print => TEXT_LIMIT,
            Call::Translate => TABLE_LIMIT,
            Call::List => LISTING_LIMIT,
            Call::Name => WORD_LIMIT,
            Call::Eventb => EVENTB_LIMIT,
            Call::Offer => RECORD_BYTES,
            _ => 0,
        }
    }

    /// Those that have the call: Event-B text is not written in C, and to time
    /// Rust twice would say nothing.
    pub fn runners(self) -> &'static [&'static Calls] {
        match self {
            Call::Eventb => &RUNNERS[..2],
            _ => &RUNNERS,
        }
    }
}

/// What the calls write to, the same for all: a lent buffer, as long as the
/// longest that a call needs, and a record.
#[derive(Clone, PartialEq)]
struct Sheet {
    buffer: Vec<u8>,
    record: Record,
}

impl Sheet {
    fn new() -> Sheet {
        Sheet { buffer: vec![0; EVENTB_LIMIT], record: [0; RECORD_BYTES] }
    }
}

/// One call of one of the runners, which tells its answer.
type Turn<'i> = Box<dyn Fn(&mut Sheet) -> u64 + 'i>;

/// With `cleared` the buffer is cleared before each call, which is timed too.
fn turn<'i>(calls: &'static Calls, call: Call, input: &'i Input, cleared: bool) -> Turn<'i> {
    let run = turn_of(calls, call, input);
    match cleared {
        false => run,
        true => Box::new(move |sheet| {
            black_box(&mut sheet.buffer)[..call.buffer_length()].fill(0);
            run(sheet)
        }),
    }
}

/// A step finds the same record at each call; setting it is timed too.
fn turn_of<'i>(calls: &'static Calls, call: Call, input: &'i Input) -> Turn<'i> {
    let Input { bytes, event, record, .. } = input;
    let length = call.buffer_length();
    match call {
        Call::Read => Box::new(|_| (calls.read)(black_box(bytes))),
        Call::Print => Box::new(move |sheet| (calls.print)(black_box(bytes), &mut sheet.buffer[..length])),
        Call::Translate => Box::new(move |sheet| (calls.translate)(black_box(bytes), &mut sheet.buffer[..length])),
        Call::List => Box::new(move |sheet| (calls.list)(black_box(bytes), &mut sheet.buffer[..length])),
        Call::Name => Box::new(move |sheet| (calls.name)(black_box(bytes), *event, &mut sheet.buffer[..length])),
        Call::Values => Box::new(|_| (calls.values)(black_box(bytes), *event)),
        Call::Eventb => Box::new(move |sheet| (calls.eventb)(black_box(bytes), *event, &mut sheet.buffer[..length])),
        Call::Check => Box::new(|_| (calls.check)(black_box(bytes)).into()),
        Call::Step => Box::new(|sheet| {
            sheet.record = *record;
            (calls.step)(black_box(bytes), &mut sheet.record, *event).into()
        }),
        Call::Offer => {
            Box::new(move |sheet| (calls.offer)(black_box(bytes), record, &mut sheet.buffer[..length]).into())
        }
        Call::Finished => Box::new(|_| (calls.finished)(black_box(bytes), record).into()),
    }
}

// ---------------------------------------------------------------------------
// The race
// ---------------------------------------------------------------------------

/// Many short rounds: on a busy machine some of them are left in peace.
#[derive(Clone, Copy)]
pub struct Effort {
    pub passes: usize,
    pub rounds: usize,
    round_time: Duration,
}

pub const RATIOS: Effort = Effort { passes: 4, rounds: 72, round_time: Duration::from_micros(500) };
pub const GROWTH: Effort = Effort { passes: 4, rounds: 24, round_time: Duration::from_micros(500) };
pub const QUICK: Effort = Effort { passes: 1, rounds: 8, round_time: Duration::from_micros(100) };

pub struct Race<'i> {
    pub call: Call,
    pub input: &'i Input,
    pub cleared: bool,
    /// Nanoseconds for one call, the best so far, in the order of the runners.
    pub best: Vec<f64>,
    turns: Vec<Turn<'i>>,
    /// How many calls fill a round; none before the first pass.
    calls: Vec<u32>,
    rounds: usize,
}

impl<'i> Race<'i> {
    pub fn new(call: Call, input: &'i Input, cleared: bool) -> Race<'i> {
        let turns: Vec<Turn> = call.runners().iter().map(|calls| turn(calls, call, input, cleared)).collect();
        assert_agreement(call, input, &turns);
        Race { call, input, cleared, best: vec![f64::INFINITY; turns.len()], turns, calls: Vec::new(), rounds: 0 }
    }

    fn pass(&mut self, effort: Effort) {
        let mut sheet = Sheet::new();
        if self.calls.is_empty() {
            let calls = self.turns.iter().map(|turn| calls_per_round(turn, &mut sheet, effort.round_time));
            self.calls = calls.collect();
        }
        for _ in 0..effort.rounds {
            for (at, turn) in self.turns.iter().enumerate() {
                let time = at_a_place(self.rounds, &mut || time_of(self.calls[at], turn, &mut sheet));
                self.best[at] = self.best[at].min(time);
            }
            self.rounds += 1;
        }
    }
}

/// The inputs take turns too, so that each meets the machine at several moments.
pub fn run<'r, 'i: 'r>(races: impl IntoIterator<Item = &'r mut Race<'i>>, effort: Effort) {
    let mut races: Vec<&mut Race> = races.into_iter().collect();
    for _ in 0..effort.passes {
        races.iter_mut().for_each(|race| race.pass(effort));
    }
}

/// All do the same job: answers and written bytes are the same, but for the rows
/// of a translation and the guards of an event, which are each one's own choice.
fn assert_agreement(call: Call, input: &Input, turns: &[Turn]) {
    let answer = |turn: &Turn| {
        let mut sheet = Sheet::new();
        (turn(&mut sheet), sheet)
    };
    let answers: Vec<(u64, Sheet)> = turns.iter().map(answer).collect();
    let agreed = match call {
        Call::Translate => answers.iter().all(|(length, sheet)| is_table(input, written(*length, sheet))),
        Call::Eventb => answers.iter().all(|(length, sheet)| is_event(input, written(*length, sheet))),
        _ => answers.iter().all(|answer| *answer == answers[0]),
    };
    assert!(agreed, "{} of {}: they differ", call.title(), input.title);
}

/// As many bytes as the answer says; none if it is no length but a refusal.
fn written(answer: u64, sheet: &Sheet) -> &[u8] {
    sheet.buffer.get(..answer as usize).unwrap_or(&[])
}

fn is_table(input: &Input, bytes: &[u8]) -> bool {
    table::check(bytes) == table::SOUND && events_of(bytes) == input.events
}

/// A text of the event that was asked for, which does what it should do.
fn is_event(input: &Input, bytes: &[u8]) -> bool {
    match (drawing_of(&input.bytes), read_event(bytes)) {
        (Ok(diagram), Ok(event)) => event_fault(&diagram, input.event as usize, &event).is_none(),
        _ => false,
    }
}

/// The rows that each translation gives a text.
pub fn rows(text: &Input) -> [usize; 3] {
    RUNNERS.map(|calls| {
        let mut sheet = Sheet::new();
        turn_of(calls, Call::Translate, text)(&mut sheet);
        rows_of(&sheet.buffer)
    })
}

/// How many bytes each that has the call writes for an event.
pub fn lengths(text: &Input) -> Vec<u64> {
    let runners = Call::Eventb.runners().iter();
    runners.map(|calls| turn_of(calls, Call::Eventb, text)(&mut Sheet::new())).collect()
}

/// Times from another place of the stack in each round. The place changes some
/// times by a fifth and is another in each run; so all take the best of many
/// places. Steps of two lengths, one 16 bytes longer than the other, lead to
/// every place that a call's frame may have within a cache line of 64.
fn at_a_place(round: usize, time: &mut dyn FnMut() -> f64) -> f64 {
    let (short, long) = (round / 4 % 28, round % 4);
    down_the_stack::<100>(short, &mut || down_the_stack::<116>(long, time))
}

#[inline(never)]
fn down_the_stack<const STEP: usize>(steps: usize, time: &mut dyn FnMut() -> f64) -> f64 {
    let step = [0u8; STEP];
    black_box(&step);
    let time = if steps == 0 { time() } else { down_the_stack::<STEP>(steps - 1, time) };
    black_box(&step);
    time
}

/// How many calls fill a round, found by doubling.
fn calls_per_round(turn: &Turn, sheet: &mut Sheet, round_time: Duration) -> u32 {
    let mut calls = 1;
    while time_of(calls, turn, sheet) * f64::from(calls) < round_time.as_nanos() as f64 && calls < 1 << 20 {
        calls *= 2;
    }
    calls
}

/// Nanoseconds for one of so many calls.
fn time_of(calls: u32, turn: &Turn, sheet: &mut Sheet) -> f64 {
    let start = Instant::now();
    for _ in 0..calls {
        black_box(turn(black_box(sheet)));
    }
    start.elapsed().as_nanos() as f64 / f64::from(calls)
}
