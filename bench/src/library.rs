//! The functions of the static libraries. Nothing checks these declarations against the Rattle source.

use crate::session::Given;
use crate::walk::Cursor;

extern "C" {
    fn crane_table_answer(table: *const u8, table_len: usize) -> u8;
    fn crane_record_answer(
        table: *const u8,
        table_len: usize,
        id: u16,
        record: *const u8,
        record_len: usize,
    ) -> u8;
    fn crane_count_fields(
        table: *const u8,
        table_len: usize,
        id: u16,
        record: *const u8,
        record_len: usize,
    ) -> u64;
    #[allow(clippy::too_many_arguments)]
    fn crane_step_part(
        table: *const u8,
        table_len: usize,
        id: u16,
        record: *const u8,
        record_len: usize,
        index: usize,
        at: usize,
        part: u8,
    ) -> u64;
    fn crane_read_again(
        message: *const u8,
        message_len: usize,
        out: *mut u8,
        out_len: usize,
        part: u8,
    ) -> u64;
    fn edition_read_again(
        version: u8,
        message: *const u8,
        message_len: usize,
        out: *mut u8,
        out_len: usize,
    ) -> u64;
    #[allow(clippy::too_many_arguments)]
    fn crane_session(
        servers: u8,
        threshold: u8,
        duration: u16,
        initial: u32,
        store: *mut u8,
        store_len: usize,
        table: *const u8,
        table_len: usize,
        id: u16,
        record: *const u8,
        record_len: usize,
        events: *const u8,
        events_len: usize,
        out: *mut u8,
        out_len: usize,
    ) -> u64;
}

pub fn table_answer(t: &[u8]) -> u8 {
    unsafe { crane_table_answer(t.as_ptr(), t.len()) }
}

pub fn record_answer(t: &[u8], id: u16, record: &[u8]) -> u8 {
    unsafe { crane_record_answer(t.as_ptr(), t.len(), id, record.as_ptr(), record.len()) }
}

/// How many fields a record has plus 256, or the refusal.
pub fn count_fields(t: &[u8], id: u16, record: &[u8]) -> u64 {
    unsafe { crane_count_fields(t.as_ptr(), t.len(), id, record.as_ptr(), record.len()) }
}

/// A part of what a step of the field walk answers.
pub fn step_part(t: &[u8], id: u16, record: &[u8], c: Cursor, part: u8) -> u64 {
    let (table, len) = (t.as_ptr(), t.len());
    let (octets, octets_len) = (record.as_ptr(), record.len());
    unsafe { crane_step_part(table, len, id, octets, octets_len, c.index, c.at, part) }
}

/// Its length plus 256, or the refusal: part 0 of what is read and written.
pub fn read_again(m: &[u8], out: &mut [u8]) -> u64 {
    unsafe { crane_read_again(m.as_ptr(), m.len(), out.as_mut_ptr(), out.len(), 0) }
}

/// The same of a message of the edition that a version names.
pub fn read_again_in(version: u8, m: &[u8], out: &mut [u8]) -> u64 {
    unsafe { edition_read_again(version, m.as_ptr(), m.len(), out.as_mut_ptr(), out.len()) }
}

pub fn session(
    g: Given,
    store: &mut [u8],
    table: &[u8],
    id: u16,
    record: &[u8],
    events: &[u8],
    out: &mut [u8],
) -> u64 {
    unsafe {
        crane_session(
            g.servers,
            g.threshold,
            g.duration,
            g.initial,
            store.as_mut_ptr(),
            store.len(),
            table.as_ptr(),
            table.len(),
            id,
            record.as_ptr(),
            record.len(),
            events.as_ptr(),
            events.len(),
            out.as_mut_ptr(),
            out.len(),
        )
    }
}
