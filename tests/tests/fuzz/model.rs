//! A table as its fields: to make random ones, and to leave out rows and events
//! of a failing one.

use reference::generate::Random;
use reference::table::{Effect, Row, Word, MOST_EVENTS, MOST_ROWS};

#[derive(Clone, Debug, PartialEq)]
pub struct Model {
    pub events: Vec<Effect>,
    pub rows: Vec<Row>,
}

impl Model {
    /// The fields of a table whose length agrees with its E and R.
    pub fn of(table: &[u8]) -> Option<Model> {
        let (words, []) = table.as_chunks() else {
            return None;
        };
        let (&[e0, e1, r0, r1], words): (&Word, &[Word]) = words.split_first()?;
        let events = usize::from(u16::from_be_bytes([e0, e1]));
        let rows = usize::from(u16::from_be_bytes([r0, r1]));
        if words.len() != events + rows {
            return None;
        }
        let events_of = |words: &[Word]| words.iter().map(|word| Effect::of(*word)).collect();
        let rows_of = |words: &[Word]| words.iter().map(|word| Row::of(*word)).collect();
        Some(Model { events: events_of(&words[..events]), rows: rows_of(&words[events..]) })
    }

    pub fn bytes(&self) -> Vec<u8> {
        let head = ((self.events.len() << 16 | self.rows.len()) as u32).to_be_bytes();
        let events = self.events.iter().map(|event| event.word());
        let rows = self.rows.iter().map(|row| row.word());
        [head].into_iter().chain(events).chain(rows).flatten().collect()
    }

    /// The table with only these rows, rising. Who named another row names the
    /// last one left before it.
    pub fn with_rows(&self, left: &[usize]) -> Model {
        let rank = |row: usize| left.partition_point(|kept| *kept <= row).saturating_sub(1);
        let renamed = |row: Row| match row.kind {
            0 => row,
            1 => Row { left: rank(row.left), ..row },
            _ => Row { left: rank(row.left), right: rank(row.right), ..row },
        };
        Model {
            events: self.events.iter().map(|event| Effect { guard: rank(event.guard), ..*event }).collect(),
            rows: left.iter().map(|row| renamed(self.rows[*row])).collect(),
        }
    }

    /// The table with only these events, rising. A row over the bit of another
    /// event is over that of the next one left.
    pub fn with_events(&self, left: &[usize]) -> Model {
        let rank = |event: usize| left.partition_point(|kept| *kept < event);
        let moved = |event: usize| {
            let effect = self.events[event];
            let first = if effect.count == 0 { rank(event) } else { rank(effect.first) };
            let count = rank(event) - first.min(rank(event));
            Effect { guard: effect.guard, first: if count == 0 { 0 } else { first }, count }
        };
        let renamed = |row: &Row| match row.kind {
            0 => Row { left: rank(row.left).min(left.len().saturating_sub(1)), ..*row },
            _ => *row,
        };
        Model {
            events: left.iter().map(|event| moved(*event)).collect(),
            rows: self.rows.iter().map(renamed).collect(),
        }
    }
}

// ---------------------------------------------------------------------------
// Random tables
// ---------------------------------------------------------------------------

/// Mostly small, now and then as large as a table may be.
pub fn random_sound(random: &mut Random) -> Model {
    let (most_events, most_rows) = match random.below(100) {
        0..=9 => (1, 1),
        10..=59 => (12, 24),
        60..=89 => (80, 200),
        90..=97 => (MOST_EVENTS, 700),
        _ => (MOST_EVENTS, MOST_ROWS),
    };
    let at_limit = random.once_in(4);
    let events = if at_limit { most_events } else { random.within(1, most_events) };
    let rows = if at_limit { most_rows } else { random.within(1, most_rows) };
    random_model(events, rows, random)
}

/// Sound but for E or R, one of which is too small or too large by one.
pub fn random_past_a_limit(random: &mut Random) -> Model {
    let (few_events, few_rows) = (random.within(1, 9), random.within(1, 9));
    match random.below(8) {
        0..=2 => random_model(0, few_rows, random),
        3..=4 => random_model(few_events, 0, random),
        5..=6 => random_model(MOST_EVENTS + 1, few_rows, random),
        _ => random_model(few_events, MOST_ROWS + 1, random),
    }
}

fn random_model(events: usize, rows: usize, random: &mut Random) -> Model {
    Model {
        events: (0..events).map(|event| random_effect(event, rows, random)).collect(),
        rows: (0..rows).map(|row| random_row(row, events, random)).collect(),
    }
}

fn random_effect(event: usize, rows: usize, random: &mut Random) -> Effect {
    let guard = random.below(rows.max(1));
    if event == 0 || !random.once_in(3) {
        return Effect { guard, first: 0, count: 0 };
    }
    // A count has 9 bits.
    let count = if random.once_in(4) { event.min(511) } else { random.within(1, event.min(9)) };
    Effect { guard, first: event - count, count }
}

fn random_row(row: usize, events: usize, random: &mut Random) -> Row {
    let kind = if row == 0 { 0 } else { random.below(4) };
    match kind {
        0 => Row { kind, left: random.below(events.max(1)), right: 0 },
        1 => Row { kind, left: lower_row(row, random), right: 0 },
        _ => Row { kind, left: lower_row(row, random), right: lower_row(row, random) },
    }
}

/// Mostly one of the rows just before.
fn lower_row(row: usize, random: &mut Random) -> usize {
    match random.below(3) {
        0 => random.below(row),
        _ => row - 1 - random.below(row.min(6)),
    }
}
