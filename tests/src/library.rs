//! The static libraries `exports`, `edition_exports`, `ipdr_exports` and `batch_exports`, called through safe
//! functions.
//!
//! They are linked if all were there when this package was built (see `build.rs`); `is_linked` tells. Without them
//! the functions here must not be called.

/// The answer of a step at the end of a record.
pub const END: u8 = 255;

/// What is added to a number that an accepted answer carries.
pub const ACCEPTED: u64 = 256;

/// The sorts of a value: octets, a number, a number below 0.
pub const OCTETS: u8 = 0;
pub const NUMBER: u8 = 1;
pub const NEGATIVE: u8 = 2;

/// The functions as the libraries declare them.
#[cfg(libraries)]
mod linked {
    extern "C" {
        pub fn crane_table_answer(table: *const u8, table_length: usize) -> u8;
        pub fn crane_record_answer(
            table: *const u8,
            table_length: usize,
            id: u16,
            record: *const u8,
            record_length: usize,
        ) -> u8;
        pub fn crane_find_part(table: *const u8, table_length: usize, id: u16, part: u8) -> u64;
        pub fn crane_read_again(
            message: *const u8,
            message_length: usize,
            out: *mut u8,
            out_length: usize,
            part: u8,
        ) -> u64;
        pub fn crane_open_answer(
            table: *const u8,
            table_length: usize,
            id: u16,
            record: *const u8,
            record_length: usize,
        ) -> u8;
        pub fn crane_count_fields(
            table: *const u8,
            table_length: usize,
            id: u16,
            record: *const u8,
            record_length: usize,
        ) -> u64;
        pub fn crane_step_part(
            table: *const u8,
            table_length: usize,
            id: u16,
            record: *const u8,
            record_length: usize,
            index: usize,
            at: usize,
            part: u8,
        ) -> u64;
        pub fn crane_append(
            flags: u8,
            kind: u16,
            sort: u8,
            number: u64,
            octets: *const u8,
            octets_length: usize,
            out: *mut u8,
            out_length: usize,
            at: usize,
        ) -> u64;
        pub fn edition_read_again(
            version: u8,
            message: *const u8,
            message_length: usize,
            out: *mut u8,
            out_length: usize,
        ) -> u64;
        pub fn ipdr_read_part(message: *const u8, message_length: usize, part: u8) -> u64;
        pub fn crane_batch(
            tape: *const u8,
            tape_length: usize,
            place: u16,
            end: u16,
            number: usize,
            lent: usize,
            store: *mut u8,
            store_length: usize,
            out: *mut u8,
            out_length: usize,
            batch_out: *mut u8,
            batch_out_length: usize,
            part: u8,
        ) -> u64;
    }
}

/// Stand-ins with the same names, so that everything builds without the libraries.
#[cfg(not(libraries))]
mod linked {
    const ABSENT: &str = "the static libraries were not linked";

    pub unsafe fn crane_table_answer(_: *const u8, _: usize) -> u8 {
        panic!("{ABSENT}")
    }

    pub unsafe fn crane_record_answer(_: *const u8, _: usize, _: u16, _: *const u8, _: usize) -> u8 {
        panic!("{ABSENT}")
    }

    pub unsafe fn crane_find_part(_: *const u8, _: usize, _: u16, _: u8) -> u64 {
        panic!("{ABSENT}")
    }

    pub unsafe fn crane_read_again(_: *const u8, _: usize, _: *mut u8, _: usize, _: u8) -> u64 {
        panic!("{ABSENT}")
    }

    pub unsafe fn crane_open_answer(_: *const u8, _: usize, _: u16, _: *const u8, _: usize) -> u8 {
        panic!("{ABSENT}")
    }

    pub unsafe fn crane_count_fields(_: *const u8, _: usize, _: u16, _: *const u8, _: usize) -> u64 {
        panic!("{ABSENT}")
    }

    #[allow(clippy::too_many_arguments)]
    pub unsafe fn crane_step_part(
        _: *const u8,
        _: usize,
        _: u16,
        _: *const u8,
        _: usize,
        _: usize,
        _: usize,
        _: u8,
    ) -> u64 {
        panic!("{ABSENT}")
    }

    #[allow(clippy::too_many_arguments)]
    pub unsafe fn crane_append(
        _: u8,
        _: u16,
        _: u8,
        _: u64,
        _: *const u8,
        _: usize,
        _: *mut u8,
        _: usize,
        _: usize,
    ) -> u64 {
        panic!("{ABSENT}")
    }

    pub unsafe fn edition_read_again(_: u8, _: *const u8, _: usize, _: *mut u8, _: usize) -> u64 {
        panic!("{ABSENT}")
    }

    pub unsafe fn ipdr_read_part(_: *const u8, _: usize, _: u8) -> u64 {
        panic!("{ABSENT}")
    }

    #[allow(clippy::too_many_arguments)]
    pub unsafe fn crane_batch(
        _: *const u8,
        _: usize,
        _: u16,
        _: u16,
        _: usize,
        _: usize,
        _: *mut u8,
        _: usize,
        _: *mut u8,
        _: usize,
        _: *mut u8,
        _: usize,
        _: u8,
    ) -> u64 {
        panic!("{ABSENT}")
    }
}

/// The libraries were there when this package was built.
pub fn is_linked() -> bool {
    cfg!(libraries)
}

/// 0 for a sound table, else 21.
pub fn table_answer(table: &[u8]) -> u8 {
    // Each pointer goes with the length of the slice that it comes from; the same holds below.
    unsafe { linked::crane_table_answer(table.as_ptr(), table.len()) }
}

/// 0 for a valid record, else 21, 15 or 16.
pub fn record_answer(table: &[u8], id: u16, record: &[u8]) -> u8 {
    unsafe { linked::crane_record_answer(table.as_ptr(), table.len(), id, record.as_ptr(), record.len()) }
}

/// One part of what finding a template answers.
pub fn find_part(table: &[u8], id: u16, part: u8) -> u64 {
    unsafe { linked::crane_find_part(table.as_ptr(), table.len(), id, part) }
}

/// 0 where a field walk over a record can begin, else 21, 15 or 16.
pub fn open_answer(table: &[u8], id: u16, record: &[u8]) -> u8 {
    unsafe { linked::crane_open_answer(table.as_ptr(), table.len(), id, record.as_ptr(), record.len()) }
}

/// How many fields a record has plus 256, or the refusal.
pub fn count_fields(table: &[u8], id: u16, record: &[u8]) -> u64 {
    unsafe { linked::crane_count_fields(table.as_ptr(), table.len(), id, record.as_ptr(), record.len()) }
}

/// Reads a message alone and writes what it says to the output; one part of what was read and written.
pub fn read_again(message: &[u8], out: &mut [u8], part: u8) -> u64 {
    unsafe { linked::crane_read_again(message.as_ptr(), message.len(), out.as_mut_ptr(), out.len(), part) }
}

/// One part of what a step of the field walk answers.
pub fn step_part(table: &[u8], id: u16, record: &[u8], index: usize, at: usize, part: u8) -> u64 {
    unsafe { linked::crane_step_part(table.as_ptr(), table.len(), id, record.as_ptr(), record.len(), index, at, part) }
}

/// Appends a field under a table of given flags; the place after it plus 256, or the refusal.
pub fn append(flags: u8, kind: u16, sort: u8, number: u64, octets: &[u8], out: &mut [u8], at: usize) -> u64 {
    let (source, length) = (octets.as_ptr(), octets.len());
    unsafe { linked::crane_append(flags, kind, sort, number, source, length, out.as_mut_ptr(), out.len(), at) }
}

/// Reads a message of an edition alone (version 1: CRANE, any other: IPDR/SP) and writes what it says to the output;
/// how many octets were written plus 256, or the refusal.
pub fn edition_read_again(version: u8, message: &[u8], out: &mut [u8]) -> u64 {
    unsafe { linked::edition_read_again(version, message.as_ptr(), message.len(), out.as_mut_ptr(), out.len()) }
}

/// Reads an IPDR/SP message alone; one part of what was read.
pub fn ipdr_read_part(message: &[u8], part: u8) -> u64 {
    unsafe { linked::ipdr_read_part(message.as_ptr(), message.len(), part) }
}

/// The arguments of a batch that no call writes to: the tape, the place of the batch and the end of the calls that are
/// made, the given number, how many octets of the store the batch is lent, and which part of what comes back is asked
/// for.
pub struct BatchCall<'a> {
    pub tape: &'a [u8],
    pub place: u16,
    pub end: u16,
    pub number: usize,
    pub lent: usize,
    pub part: u8,
}

/// Sets up an exporter by the tape's settings over the store and makes the calls of its events before the place, then
/// one batch, then the calls from the place to the end. The calls write to `out`, the batch to `batch_out`.
pub fn batch(call: &BatchCall, store: &mut [u8], out: &mut [u8], batch_out: &mut [u8]) -> u64 {
    unsafe {
        linked::crane_batch(
            call.tape.as_ptr(),
            call.tape.len(),
            call.place,
            call.end,
            call.number,
            call.lent,
            store.as_mut_ptr(),
            store.len(),
            out.as_mut_ptr(),
            out.len(),
            batch_out.as_mut_ptr(),
            batch_out.len(),
            call.part,
        )
    }
}
