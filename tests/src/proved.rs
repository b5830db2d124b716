//! The proved library, through the C functions of its test archive: those made
//! for these tests, and those of the firmware (adl.h) that play a run.

pub use crate::kit::refusal_number;
use crate::listing::{Values, LISTING_LIMIT};
use crate::table::Words;
use crate::{Kind, NodeInfo, Refusal, Summary};

/// The run record as the library has it.
#[repr(C)]
struct Record {
    bits: Words,
}

extern "C" {
    fn adl_test_read(text: *const u8, len: usize) -> u64;
    fn adl_test_print(text: *const u8, len: usize, out: *mut u8, out_len: usize) -> u64;
    fn adl_test_translate(text: *const u8, len: usize, out: *mut u8, out_len: usize) -> u64;
    fn adl_test_list(text: *const u8, len: usize, out: *mut u8) -> u64;
    fn adl_test_name(text: *const u8, len: usize, event: u64, out: *mut u8, out_len: usize) -> u64;
    fn adl_test_values(text: *const u8, len: usize, event: u64) -> u64;
    fn adl_test_eventb(text: *const u8, len: usize, event: u64, out: *mut u8, out_len: usize) -> u64;
    fn adl_test_node(text: *const u8, len: usize, index: u64) -> u64;
    fn adl_test_place(text: *const u8, len: usize, index: u64) -> u64;
    fn adl_test_update(table: *const u8, table_len: usize, lent: *mut Record, event: u64) -> u64;
    fn adl_check(table: *const u8, table_len: usize) -> u8;
    fn adl_step(table: *const u8, table_len: usize, record: *mut u8, record_len: usize, event: u64) -> u8;
    fn adl_offer(
        table: *const u8,
        table_len: usize,
        record: *const u8,
        record_len: usize,
        out: *mut u8,
        out_len: usize,
    ) -> u8;
    fn adl_finished(table: *const u8, table_len: usize, record: *const u8, record_len: usize) -> u8;
}

/// nodes * 2^20 + copies * 2^10 + events, or number * 2^32 + place for a
/// refusal.
pub fn read(text: &[u8]) -> u64 {
    // The pointer and the length are those of one slice, which is only read.
    unsafe { adl_test_read(text.as_ptr(), text.len()) }
}

/// The number of bytes written, or number * 2^32 + place for a refusal.
pub fn print(text: &[u8], out: &mut [u8]) -> u64 {
    // Pointers and lengths are those of two slices; the second may be written.
    unsafe { adl_test_print(text.as_ptr(), text.len(), out.as_mut_ptr(), out.len()) }
}

/// The number of bytes written, or number * 2^32 + place for a refusal.
pub fn translate(text: &[u8], out: &mut [u8]) -> u64 {
    // Pointers and lengths are those of two slices; the second may be written.
    unsafe { adl_test_translate(text.as_ptr(), text.len(), out.as_mut_ptr(), out.len()) }
}

/// The length of the listing, which is written as far as the buffer goes: the
/// call is lent room for the longest listing, a shorter buffer gets its front.
pub fn list(text: &[u8], out: &mut [u8]) -> u64 {
    if out.len() < LISTING_LIMIT {
        let mut whole = vec![0; LISTING_LIMIT];
        let length = list(text, &mut whole);
        let front = out.len().min(length as usize);
        out[..front].copy_from_slice(&whole[..front]);
        return length;
    }
    // Pointer and length are those of a slice; LISTING_LIMIT bytes may be written.
    unsafe { adl_test_list(text.as_ptr(), text.len(), out.as_mut_ptr()) }
}

/// The length of the name, which is written as far as the buffer goes; 0 for a
/// refusal.
pub fn name(text: &[u8], event: u64, out: &mut [u8]) -> u64 {
    // Pointers and lengths are those of two slices; the second may be written.
    unsafe { adl_test_name(text.as_ptr(), text.len(), event, out.as_mut_ptr(), out.len()) }
}

/// The mark and the values as `values_number` packs them, or
/// number * 2^32 + place for a refusal.
pub fn values(text: &[u8], event: u64) -> u64 {
    // The pointer and the length are those of one slice, which is only read.
    unsafe { adl_test_values(text.as_ptr(), text.len(), event) }
}

/// The Event-B text of an event: the number of bytes written, or
/// number * 2^32 + place for a refusal.
pub fn eventb(text: &[u8], event: u64, out: &mut [u8]) -> u64 {
    // Pointers and lengths are those of two slices; the second may be written.
    unsafe { adl_test_eventb(text.as_ptr(), text.len(), event, out.as_mut_ptr(), out.len()) }
}

/// What `node_number` packs of the node with this index in text order, or
/// number * 2^32 + place for a refusal, NO_NODE for an index past the nodes.
pub fn node(text: &[u8], index: u64) -> u64 {
    // The pointer and the length are those of one slice, which is only read.
    unsafe { adl_test_node(text.as_ptr(), text.len(), index) }
}

/// What `place_number` packs of the node with this index, else as `node`.
pub fn place(text: &[u8], index: u64) -> u64 {
    // The pointer and the length are those of one slice, which is only read.
    unsafe { adl_test_place(text.as_ptr(), text.len(), index) }
}

/// The thin call on a record that is lent: 0 if the event was taken, otherwise
/// number * 2^32 + place for a refusal.
pub fn update(table: &[u8], words: &mut Words, event: u64) -> u64 {
    let lent = std::ptr::from_mut(words).cast();
    // A record is laid out as its one field; the table's pointer and length are
    // those of a slice, which is only read.
    unsafe { adl_test_update(table.as_ptr(), table.len(), lent, event) }
}

/// 0 for a sound table, otherwise the number of the refusal.
pub fn check(table: &[u8]) -> u8 {
    // The pointer and the length are those of one slice, which is only read.
    unsafe { adl_check(table.as_ptr(), table.len()) }
}

/// 0 if the event was taken, otherwise the number of the refusal.
pub fn step(table: &[u8], record: &mut [u8], event: u64) -> u8 {
    // Pointers and lengths are those of two slices; the second may be written.
    unsafe { adl_step(table.as_ptr(), table.len(), record.as_mut_ptr(), record.len(), event) }
}

/// 0 if the events that may come next were written, otherwise the number of
/// the refusal.
pub fn offer(table: &[u8], record: &[u8], out: &mut [u8]) -> u8 {
    // Pointers and lengths are those of three slices; the last may be written.
    unsafe { adl_offer(table.as_ptr(), table.len(), record.as_ptr(), record.len(), out.as_mut_ptr(), out.len()) }
}

/// 255 if the run is finished, 0 if not, otherwise the number of the refusal.
pub fn finished(table: &[u8], record: &[u8]) -> u8 {
    // Pointers and lengths are those of two slices, which are only read.
    unsafe { adl_finished(table.as_ptr(), table.len(), record.as_ptr(), record.len()) }
}

/// The reference's answer to reading, as the C function would give it.
pub fn read_number(answer: &Result<Summary, Refusal>) -> u64 {
    match answer {
        Ok(summary) => counts_number(summary.nodes.len(), summary.copies, summary.events),
        Err(refusal) => refusal_number(*refusal),
    }
}

/// Nodes, copies and events as the C function would give them.
pub fn counts_number(nodes: usize, copies: usize, events: usize) -> u64 {
    (nodes as u64) << 20 | (copies as u64) << 10 | events as u64
}

/// The reference's answer to printing, as the C function would give it.
pub fn print_number(answer: &Result<Vec<u8>, Refusal>) -> u64 {
    match answer {
        Ok(bytes) => bytes.len() as u64,
        Err(refusal) => refusal_number(*refusal),
    }
}

/// The reference's answer to the values call, as the C function would give it:
/// reset * 2^24 + count * 2^18 + v0 * 2^12 + v1 * 2^6 + v2, a value that is not
/// there being 0.
pub fn values_number(answer: &Result<Values, Refusal>) -> u64 {
    match answer {
        Ok(values) => {
            let value = |at: usize| values.list.get(at).map_or(0, |&value| value as u64);
            let packed = value(0) << 12 | value(1) << 6 | value(2);
            u64::from(values.reset) << 24 | (values.list.len() as u64) << 18 | packed
        }
        Err(refusal) => refusal_number(*refusal),
    }
}

/// The answer of `node` and `place` to an index at or past the nodes.
pub const NO_NODE: u64 = 255 << 32;

/// The reference's node as the C function would give it:
/// kind * 2^24 + size * 2^18 + solid * 2^12 + strong * 2^6 + depth.
pub fn node_number(node: &NodeInfo) -> u64 {
    let (kind, size) = match node.kind {
        Kind::Flow => (0, 0),
        Kind::Leaf => (1, 0),
        Kind::And => (2, 0),
        Kind::Or => (3, 0),
        Kind::Xor => (4, 0),
        Kind::All(size) => (5, size as u64),
        Kind::Some(size) => (6, size as u64),
        Kind::One(size) => (7, size as u64),
        Kind::Loop => (8, 0),
    };
    kind << 24 | size << 18 | u64::from(node.solid) << 12 | u64::from(node.strong) << 6 | node.depth as u64
}

/// The places of a node as the C function would give them: that of its keyword
/// * 2^16 + that of its name or par, 0 where it has none.
pub fn place_number(node: &NodeInfo) -> u64 {
    (node.place as u64) << 16 | node.word_place.unwrap_or(0) as u64
}
