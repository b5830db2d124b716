//! The thin call, on the words of a record that stand between two margins.

use reference::kit::Lent;
use reference::plain::calls::Calls;
use reference::table::{bytes_of, words_of, Words};
use std::hint::black_box;

/// Words before and after what is lent, which nobody may change.
const MARGIN: Words = [0xA5A5_5A5A_0FF0_C33C; 8];

#[repr(C)]
struct LentWords {
    before: Words,
    words: Words,
    after: Words,
}

/// A step through the thin call, as one on the bytes of a record: the number that
/// it answers, or what is wrong.
pub fn update(table: &Lent, record: &mut [u8], event: u64, library: &Calls) -> Result<u8, String> {
    let record: &mut [u8; 64] = record.try_into().expect("a record has 64 bytes");
    let mut lent = LentWords { before: MARGIN, words: words_of(record), after: MARGIN };
    let answer = (library.update)(table.bytes(), &mut lent.words, event);
    // The archive is outside what the compiler knows: look at the words anew.
    let lent = black_box(lent);
    if lent.before != MARGIN || lent.after != MARGIN {
        return Err("the thin call wrote beside the record".to_string());
    }
    *record = bytes_of(&lent.words);
    match answer % (1 << 32) {
        0 => u8::try_from(answer >> 32).map_err(|_| format!("the thin call answers {answer}")),
        place => Err(format!("the thin call answers with place {place}")),
    }
}
