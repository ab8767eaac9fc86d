//! Safe functions over the proved layer: each calls a C function of the static library that `tools/build cabi` writes.
//! c/ungletice.h declares the same functions and structs for C, and says what they do.

mod desk;
mod recorder;

pub use desk::{desk_read, entry_of, header_of, read_part, refresh, take, EntryTold, Part, Told};
pub use recorder::{
    base_length, buffer_length, close, closed_tick, end, entries, grow, held_length, ledger_length,
    metadata_counts, open, raw_counts, read, settings_of, side_length, write, Answer, Counts,
    Settings, Slots, State,
};

extern "C" {
    fn ungletice_lookup3(bytes: *const u8, bytes_length: usize, start: u32) -> u32;
}

/// Bob Jenkins' lookup3 `hashlittle` of the bytes.
pub fn hashlittle(bytes: &[u8], start: u32) -> u32 {
    // SAFETY: the function reads `bytes_length` bytes at the pointer and writes none, and keeps neither.
    unsafe { ungletice_lookup3(bytes.as_ptr(), bytes.len(), start) }
}
