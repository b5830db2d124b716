//! The table player on tables written by hand for T and U of document 01, and
//! on tables and records that break one rule each.

use crate::meaning::{FINISHED, NOT_FINISHED, NOT_NOW, NO_EVENT, TAKEN};
use crate::table::{
    check, finished, offer, step, OFFERED, RECORD_BYTES, SHORT_BUFFER, SOUND, STRAY_BIT, UNSOUND_TABLE,
};

type Word = u32;

const fn effect(guard: Word, first: Word, count: Word) -> Word {
    guard << 18 | first << 9 | count
}

const fn bit(left: Word) -> Word {
    left << 15
}

const fn not(left: Word) -> Word {
    1 << 30 | left << 15
}

const fn both(left: Word, right: Word) -> Word {
    2 << 30 | left << 15 | right
}

const fn either(left: Word, right: Word) -> Word {
    3 << 30 | left << 15 | right
}

fn table(events: &[Word], rows: &[Word]) -> Vec<u8> {
    let head = (events.len() as Word) << 16 | rows.len() as Word;
    [&[head], events, rows].concat().iter().flat_map(|word| word.to_be_bytes()).collect()
}

/// T: take 0, fill 1 in a loop, send 2 or drop 3, free 4.
fn table_of_t() -> Vec<u8> {
    let rows = [
        bit(0),
        bit(2),
        bit(3),
        bit(4),
        // 4: send or drop was taken.
        either(1, 2),
        not(0),
        not(4),
        not(3),
        // 8: guard of fill, send and drop.
        both(0, 6),
        // 9: guard of free.
        both(4, 7),
        bit(4),
    ];
    table(&[effect(5, 0, 0), effect(8, 0, 0), effect(8, 0, 0), effect(8, 0, 0), effect(9, 0, 0)], &rows)
}

/// U: a 0 and b 1 in a loop over a flow, its reset 2, c 3.
fn table_of_u() -> Vec<u8> {
    let rows = [
        bit(0),
        bit(1),
        bit(3),
        not(0),
        not(1),
        not(2),
        // 6: no round is halfway.
        either(3, 1),
        // 7 to 10: guards of a, b, the reset and c.
        both(3, 5),
        both(0, 4),
        both(1, 5),
        both(6, 5),
        bit(3),
    ];
    table(&[effect(7, 0, 0), effect(8, 0, 0), effect(9, 0, 2), effect(10, 0, 0)], &rows)
}

/// Takes these events one after the other; all but the last must be taken.
/// Tells the last answer, whether the run is finished, and the record.
fn play(table: &[u8], events: &[u64]) -> (u8, u8, [u8; RECORD_BYTES]) {
    assert_eq!(check(table), SOUND);
    let mut record = [0; RECORD_BYTES];
    let (last, before) = events.split_last().expect("there is an event");
    for event in before {
        assert_eq!(step(table, &mut record, *event), TAKEN, "event {event} of {events:?}");
    }
    let answer = step(table, &mut record, *last);
    (answer, finished(table, &record), record)
}

fn assert_whole(table: &[u8], events: &[u64]) {
    let (answer, finished, _) = play(table, events);
    assert_eq!((answer, finished), (TAKEN, FINISHED), "{events:?}");
}

/// The last event is turned away and leaves the record alone.
fn assert_turned_away(table: &[u8], events: &[u64], number: u8) {
    let (answer, _, record) = play(table, events);
    assert_eq!(answer, number, "{events:?}");
    assert_eq!(record, play(table, &events[..events.len() - 1]).2, "{events:?}");
}

#[test]
fn drawing_t() {
    let table = table_of_t();
    assert_whole(&table, &[0, 2, 4]);
    assert_whole(&table, &[0, 1, 1, 3, 4]);
    assert_turned_away(&table, &[0, 2, 3], NOT_NOW);
    assert_turned_away(&table, &[0, 2, 4, 4], NOT_NOW);
    assert_turned_away(&table, &[0, 2, 1], NOT_NOW);
    assert_eq!(play(&table, &[0, 2]).1, NOT_FINISHED);
}

#[test]
fn drawing_u() {
    let table = table_of_u();
    assert_whole(&table, &[3]);
    assert_whole(&table, &[0, 1, 2, 3]);
    assert_whole(&table, &[0, 1, 3]);
    assert_turned_away(&table, &[0, 3], NOT_NOW);
    assert_turned_away(&table, &[0, 1, 3, 2], NOT_NOW);
    assert_turned_away(&table, &[0, 1, 2, 2], NOT_NOW);
    for (events, byte) in [(&[0, 1][..], 192), (&[0, 1, 2], 32), (&[0, 1, 2, 3], 48)] {
        let mut record = [0; RECORD_BYTES];
        record[0] = byte;
        assert_eq!(play(&table, events).2, record, "{events:?}");
    }
}

#[test]
fn numbers_past_the_events() {
    let table = table_of_u();
    for event in [4, 5, 512, 1 << 16, 1 << 32, (1 << 32) + 1, 1 << 63, u64::MAX] {
        assert_turned_away(&table, &[0, event], NO_EVENT);
    }
}

#[test]
fn what_is_offered() {
    let table = table_of_u();
    let points =
        [(0, 0b1001_0000), (128, 0b0100_0000), (192, 0b0011_0000), (32, 0b1001_0000), (48, 0), (208, 0), (240, 0)];
    for (record_byte, offered) in points {
        let mut record = [0; RECORD_BYTES];
        record[0] = record_byte;
        let mut out = [0xFF; RECORD_BYTES + 3];
        assert_eq!(offer(&table, &record, &mut out), OFFERED);
        assert_eq!(out[0], offered, "{record_byte}");
        assert!(out[1..RECORD_BYTES].iter().all(|byte| *byte == 0));
        assert_eq!(out[RECORD_BYTES..], [0xFF; 3]);
    }
}

#[test]
fn tables_that_break_one_rule() {
    let (guard, row) = (effect(0, 0, 0), bit(0));
    let unsound = [
        table(&[], &[row]),
        table(&[guard], &[]),
        table(&[guard; 513], &[row]),
        table(&[guard], &[row; 12_289]),
        table(&[effect(1, 0, 0)], &[row]),
        table(&[guard], &[bit(1)]),
        table(&[guard], &[bit(0) | 1]),
        table(&[guard], &[row, not(1)]),
        table(&[guard], &[row, not(0) | 1]),
        table(&[guard], &[row, both(1, 0)]),
        table(&[guard], &[row, both(0, 1)]),
        table(&[guard], &[row, either(1, 0)]),
        table(&[guard], &[row, either(0, 1)]),
        table(&[guard, effect(0, 1, 0)], &[row]),
        table(&[guard, effect(0, 0, 2)], &[row]),
        table(&[guard, guard, effect(0, 0, 1)], &[row]),
        table(&[effect(0, 0, 1)], &[row]),
    ];
    for table in unsound {
        assert_eq!(check(&table), UNSOUND_TABLE, "{table:?}");
        assert_eq!(step(&table, &mut [0xFF; 64], u64::MAX), UNSOUND_TABLE, "{table:?}");
    }
    let mut long = table_of_t();
    for length in 0..long.len() {
        assert_eq!(check(&long[..length]), UNSOUND_TABLE, "{length}");
    }
    long.push(0);
    assert_eq!(check(&long), UNSOUND_TABLE);
    assert_eq!(check(&table(&[guard; 512], &[row; 12_288])), SOUND);
    assert_eq!(check(&table(&[guard, guard, effect(0, 1, 1)], &[row])), SOUND);
}

/// Where several refusals apply, the lowest number is given.
#[test]
fn refusals_go_by_their_numbers() {
    let (sound, stray) = (table_of_u(), [0b0000_1000; RECORD_BYTES]);
    for length in [0, 63, 65, 128] {
        let mut record = vec![0xFF; length];
        assert_eq!(step(&[], &mut record, u64::MAX), SHORT_BUFFER);
        assert_eq!(finished(&[], &record), SHORT_BUFFER);
        assert_eq!(offer(&[], &record, &mut [0; 64]), SHORT_BUFFER);
    }
    assert_eq!(offer(&[], &stray, &mut [0; 63]), SHORT_BUFFER);
    assert_eq!(offer(&[], &stray, &mut [0; 64]), UNSOUND_TABLE);
    assert_eq!(finished(&[], &stray), UNSOUND_TABLE);
    assert_eq!(offer(&sound, &stray, &mut [0; 64]), STRAY_BIT);
    assert_eq!(finished(&sound, &stray), STRAY_BIT);
    assert_eq!(step(&sound, &mut stray.clone(), 4), STRAY_BIT);
    let mut last = [0; RECORD_BYTES];
    last[63] = 1;
    assert_eq!(step(&sound, &mut last, 4), STRAY_BIT);
}
