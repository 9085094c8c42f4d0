//! The proved library's seven functions.
//!
//! Each takes any input: none has a precondition. `out` gets the answer as
//! 64-bit numbers, the first two being the number of the refusal (0: none) and
//! its place. All that have an `out` also return that number, whatever places it
//! has.

use reference::board::Lent;

/// Number, place, model, registers, register instances, nodes, node instances
/// and roots.
pub const CHECK_PLACES: usize = 8;
/// Number, place, offset, size.
pub const ADDRESS_PLACES: usize = 4;
/// Number, place, records, steps.
pub const ISOLATE_PLACES: usize = 4;
/// Number, place, records, steps, slot.
pub const BOARD_PLACES: usize = 5;
/// Number, place, bytes written: of write and of read.
pub const RECORDS_PLACES: usize = 3;
/// A text of so many bytes has room for every answer of the report.
pub const TEXT_BYTES: usize = 152_000;

extern "C" {
    fn lutemarble_check(file: *const u8, file_len: usize, out: *mut u64, out_len: usize) -> u64;

    fn lutemarble_address(
        file: *const u8,
        file_len: usize,
        id: u64,
        instance: u8,
        out: *mut u64,
        out_len: usize,
    ) -> u64;

    fn lutemarble_isolate(
        file: *const u8,
        file_len: usize,
        attention: u8,
        words: *const u64,
        words_len: usize,
        read: *const u8,
        read_len: usize,
        list: *mut u8,
        list_len: usize,
        out: *mut u64,
        out_len: usize,
    ) -> u64;

    fn lutemarble_board(
        files: *const u8,
        files_len: usize,
        file_lengths: *const u64,
        file_slots: usize,
        attention: u8,
        words: *const u64,
        words_len: usize,
        word_lengths: *const u64,
        word_slots: usize,
        read: *const u8,
        read_len: usize,
        read_lengths: *const u64,
        read_slots: usize,
        list: *mut u8,
        list_len: usize,
        out: *mut u64,
        out_len: usize,
    ) -> u64;

    fn lutemarble_write(
        model: u32,
        records: *const u8,
        records_len: usize,
        file: *mut u8,
        file_len: usize,
        out: *mut u64,
        out_len: usize,
    ) -> u64;

    fn lutemarble_read(
        file: *const u8,
        file_len: usize,
        records: *mut u8,
        records_len: usize,
        out: *mut u64,
        out_len: usize,
    ) -> u64;

    fn lutemarble_report(
        file: *const u8,
        file_len: usize,
        attention: u8,
        readings: *const u8,
        readings_len: usize,
        text: *mut u8,
        text_len: usize,
    ) -> usize;
}

/// An `out` of fewer than [`CHECK_PLACES`] places keeps what it has.
pub fn check(file: &[u8], out: &mut [u64]) -> u64 {
    // SAFETY: the pointers and lengths are those of slices that live until the
    // call returns, and nothing else has the one that is written.
    unsafe { lutemarble_check(file.as_ptr(), file.len(), out.as_mut_ptr(), out.len()) }
}

/// An `out` of fewer than [`ADDRESS_PLACES`] places keeps what it has.
pub fn address(file: &[u8], id: u64, instance: u8, out: &mut [u64]) -> u64 {
    // SAFETY: as above.
    unsafe {
        lutemarble_address(
            file.as_ptr(),
            file.len(),
            id,
            instance,
            out.as_mut_ptr(),
            out.len(),
        )
    }
}

/// An `out` of fewer than [`ISOLATE_PLACES`] places keeps what it has.
pub fn isolate(
    file: &[u8],
    attention_type: u8,
    words: &[u64],
    read: &[u8],
    list: &mut [u8],
    out: &mut [u64],
) -> u64 {
    // SAFETY: as above; `list` and `out` are lent alone and do not overlap.
    unsafe {
        lutemarble_isolate(
            file.as_ptr(),
            file.len(),
            attention_type,
            words.as_ptr(),
            words.len(),
            read.as_ptr(),
            read.len(),
            list.as_mut_ptr(),
            list.len(),
            out.as_mut_ptr(),
            out.len(),
        )
    }
}

/// An `out` of fewer than [`BOARD_PLACES`] places keeps what it has.
pub fn board(
    files: Lent<'_, u8>,
    attention_type: u8,
    words: Lent<'_, u64>,
    read: Lent<'_, u8>,
    list: &mut [u8],
    out: &mut [u64],
) -> u64 {
    // SAFETY: as above; `list` and `out` are lent alone and do not overlap.
    unsafe {
        lutemarble_board(
            files.all.as_ptr(),
            files.all.len(),
            files.lengths.as_ptr(),
            files.lengths.len(),
            attention_type,
            words.all.as_ptr(),
            words.all.len(),
            words.lengths.as_ptr(),
            words.lengths.len(),
            read.all.as_ptr(),
            read.all.len(),
            read.lengths.as_ptr(),
            read.lengths.len(),
            list.as_mut_ptr(),
            list.len(),
            out.as_mut_ptr(),
            out.len(),
        )
    }
}

/// An `out` of fewer than [`RECORDS_PLACES`] places keeps what it has.
pub fn write(model: u32, records: &[u8], file: &mut [u8], out: &mut [u64]) -> u64 {
    // SAFETY: as above; `file` and `out` are lent alone and do not overlap.
    unsafe {
        lutemarble_write(
            model,
            records.as_ptr(),
            records.len(),
            file.as_mut_ptr(),
            file.len(),
            out.as_mut_ptr(),
            out.len(),
        )
    }
}

/// An `out` of fewer than [`RECORDS_PLACES`] places keeps what it has.
pub fn read(file: &[u8], records: &mut [u8], out: &mut [u64]) -> u64 {
    // SAFETY: as above; `records` and `out` are lent alone and do not overlap.
    unsafe {
        lutemarble_read(
            file.as_ptr(),
            file.len(),
            records.as_mut_ptr(),
            records.len(),
            out.as_mut_ptr(),
            out.len(),
        )
    }
}

/// The text goes to the front of `text`, as much of it as that has room for.
/// Returns the length of the whole.
pub fn report(file: &[u8], attention_type: u8, readings_file: &[u8], text: &mut [u8]) -> usize {
    // SAFETY: as above.
    unsafe {
        lutemarble_report(
            file.as_ptr(),
            file.len(),
            attention_type,
            readings_file.as_ptr(),
            readings_file.len(),
            text.as_mut_ptr(),
            text.len(),
        )
    }
}
