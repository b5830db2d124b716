//! Plain C of all calls, tests/c/plain_text.h and tests/c/plain.h: the answers
//! are those of the functions with the same names in `proved`.

extern "C" {
    fn plain_read(text: *const u8, len: usize) -> u64;
    fn plain_print(text: *const u8, len: usize, out: *mut u8, out_len: usize) -> u64;
    fn plain_translate(text: *const u8, len: usize, out: *mut u8, out_len: usize) -> u64;
    fn plain_list(text: *const u8, len: usize, out: *mut u8, out_len: usize) -> u64;
    fn plain_name(text: *const u8, len: usize, event: u64, out: *mut u8, out_len: usize) -> u64;
    fn plain_values(text: *const u8, len: usize, event: u64) -> u64;
    fn plain_check(table: *const u8, table_len: usize) -> u8;
    fn plain_step(table: *const u8, table_len: usize, record: *mut u8, record_len: usize, event: u64) -> u8;
    fn plain_offer(
        table: *const u8,
        table_len: usize,
        record: *const u8,
        record_len: usize,
        out: *mut u8,
        out_len: usize,
    ) -> u8;
    fn plain_finished(table: *const u8, table_len: usize, record: *const u8, record_len: usize) -> u8;
}

// In each call the pointers and lengths are those of slices, of which only the
// mutable ones are written.

pub fn read(text: &[u8]) -> u64 {
    unsafe { plain_read(text.as_ptr(), text.len()) }
}

pub fn print(text: &[u8], out: &mut [u8]) -> u64 {
    unsafe { plain_print(text.as_ptr(), text.len(), out.as_mut_ptr(), out.len()) }
}

pub fn translate(text: &[u8], out: &mut [u8]) -> u64 {
    unsafe { plain_translate(text.as_ptr(), text.len(), out.as_mut_ptr(), out.len()) }
}

pub fn list(text: &[u8], out: &mut [u8]) -> u64 {
    unsafe { plain_list(text.as_ptr(), text.len(), out.as_mut_ptr(), out.len()) }
}

pub fn name(text: &[u8], event: u64, out: &mut [u8]) -> u64 {
    unsafe { plain_name(text.as_ptr(), text.len(), event, out.as_mut_ptr(), out.len()) }
}

pub fn values(text: &[u8], event: u64) -> u64 {
    unsafe { plain_values(text.as_ptr(), text.len(), event) }
}

pub fn check(table: &[u8]) -> u8 {
    unsafe { plain_check(table.as_ptr(), table.len()) }
}

pub fn step(table: &[u8], record: &mut [u8], event: u64) -> u8 {
    unsafe { plain_step(table.as_ptr(), table.len(), record.as_mut_ptr(), record.len(), event) }
}

pub fn offer(table: &[u8], record: &[u8], out: &mut [u8]) -> u8 {
    unsafe { plain_offer(table.as_ptr(), table.len(), record.as_ptr(), record.len(), out.as_mut_ptr(), out.len()) }
}

pub fn finished(table: &[u8], record: &[u8]) -> u8 {
    unsafe { plain_finished(table.as_ptr(), table.len(), record.as_ptr(), record.len()) }
}
