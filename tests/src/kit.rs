//! What the tests that play the proved library share: numbers from the
//! environment, a refusal as one number, lending bytes to a call, making a
//! failing list shorter, and counting what was met.

use crate::Refusal;
use std::collections::BTreeMap;
use std::env;
use std::hint::black_box;
use std::ops::Range;

/// The number in an environment variable.
pub fn number_from(variable: &str, otherwise: u64) -> u64 {
    match env::var(variable) {
        Ok(word) => word.parse().unwrap_or_else(|_| panic!("{variable} must be a number, not {word}")),
        Err(_) => otherwise,
    }
}

/// A refusal as the C functions for these tests give it.
pub fn refusal_number((number, place): Refusal) -> u64 {
    (u64::from(number) << 32) + place as u64
}

// ---------------------------------------------------------------------------
// Lent bytes
// ---------------------------------------------------------------------------

/// So many bytes stand before and after what is lent, which nobody may change.
const MARGIN: usize = 64;

/// Bytes that are lent to a call, between two margins.
pub struct Lent {
    bytes: Vec<u8>,
    before: Vec<u8>,
}

impl Lent {
    /// A text between letters: a reader that looks past its ends sees other
    /// words.
    pub fn text(text: &[u8]) -> Lent {
        Lent::between(&[b'x'; MARGIN], text)
    }

    /// A table or a record.
    pub fn bytes_of(bytes: &[u8]) -> Lent {
        Lent::between(&[0xA5; MARGIN], bytes)
    }

    /// A buffer to write to, filled with bytes that no call writes by chance,
    /// other ones for each salt.
    pub fn buffer(length: usize, salt: usize) -> Lent {
        let pattern = |at: usize| (at * 37 + salt * 11 + 129) as u8 | 0x80;
        let bytes: Vec<u8> = (0..length + 2 * MARGIN).map(pattern).collect();
        Lent { before: bytes.clone(), bytes }
    }

    fn between(margin: &[u8], bytes: &[u8]) -> Lent {
        let bytes = [margin, bytes, margin].concat();
        Lent { before: bytes.clone(), bytes }
    }

    fn inner(&self) -> Range<usize> {
        MARGIN..self.bytes.len() - MARGIN
    }

    pub fn bytes(&self) -> &[u8] {
        &self.bytes[self.inner()]
    }

    pub fn bytes_mut(&mut self) -> &mut [u8] {
        let inner = self.inner();
        &mut self.bytes[inner]
    }

    /// The first byte that is not as it should be: these where the lent bytes
    /// begin, and around them all as it was.
    pub fn difference(&self, written: &[u8]) -> Option<String> {
        // The archive is outside what the compiler knows: look at the bytes anew.
        let given = black_box(&self.bytes);
        let end = MARGIN + written.len();
        let pieces = [(0, &self.before[..MARGIN]), (MARGIN, written), (end, &self.before[end..])];
        let (start, wanted) = pieces.into_iter().find(|(start, wanted)| given[*start..][..wanted.len()] != **wanted)?;
        let at = (0..wanted.len()).find(|&at| given[start + at] != wanted[at])?;
        let place = (start + at) as isize - MARGIN as isize;
        Some(format!("byte {place} is {}, should be {}", given[start + at], wanted[at]))
    }

    /// What was changed, if anything.
    pub fn change(&self) -> Option<String> {
        self.difference(&[]).map(|difference| format!("changed though it must not be: {difference}"))
    }
}

// ---------------------------------------------------------------------------
// A shorter failing list
// ---------------------------------------------------------------------------

/// How many shorter lists are tried at most.
const TRIES: usize = 4000;

/// Takes pieces out of a failing list as long as it still fails.
pub fn shorten<V: Clone>(list: &[V], fails: impl Fn(&[V]) -> bool) -> Vec<V> {
    let mut list = list.to_vec();
    let mut piece = list.len().div_ceil(2);
    let mut tries = 0;
    while piece > 0 {
        let mut at = 0;
        while at < list.len() && tries < TRIES {
            tries += 1;
            let mut shorter = list.clone();
            shorter.drain(at..(at + piece).min(list.len()));
            match fails(&shorter) {
                true => list = shorter,
                false => at += piece,
            }
        }
        piece /= 2;
    }
    list
}

// ---------------------------------------------------------------------------
// What was met
// ---------------------------------------------------------------------------

/// How often each thing came up that has to come up.
#[derive(Clone)]
pub struct Counts(BTreeMap<String, usize>);

impl Counts {
    pub fn new(titles: impl IntoIterator<Item = String>) -> Counts {
        Counts(titles.into_iter().map(|title| (title, 0)).collect())
    }

    pub fn add(&mut self, title: &str) {
        *self.0.get_mut(title).unwrap_or_else(|| panic!("{title} is not counted")) += 1;
    }

    pub fn add_if(&mut self, condition: bool, title: &str) {
        if condition {
            self.add(title);
        }
    }

    /// Adds what another list with the same titles counted.
    pub fn join(&mut self, other: &Counts) {
        for (title, count) in &other.0 {
            *self.0.get_mut(title).unwrap_or_else(|| panic!("{title} is not counted")) += count;
        }
    }

    /// How often it came up, none if it is not counted.
    pub fn get(&self, title: &str) -> Option<usize> {
        self.0.get(title).copied()
    }

    pub fn unmet(&self) -> Vec<&str> {
        self.0.iter().filter(|(_, count)| **count == 0).map(|(title, _)| title.as_str()).collect()
    }
}
