//! The side file: where its parts lie, how header and index are written, and the tests of refusals
//! 11 and 12.
//!
//! A desk's held buffer is a copy of header and index, so the same tests judge it.

use crate::bytes::{put_u16, put_u32, u16_at, u32_at};
use crate::ledger::Entry;
use crate::lookup3::checksum;
use crate::rows::{self, NO_PLACES};
use crate::settings::{held_length, image_places, index_entries, Settings};

pub(crate) const HEADER_LENGTH: usize = 36;
pub(crate) const ENTRY_LENGTH: usize = 16;

/// An index entry: page, place, last change, checksum of the image.
type Row = [u8; ENTRY_LENGTH];

const FORM: [u8; 4] = *b"TWL\0";
const VERSION: u16 = 1;
const VERSION_AT: usize = 4;
const LAG_AT: usize = 6;
const PAGE_SIZE_AT: usize = 8;
const CLOSED_AT: usize = 12;
const END_AT: usize = 16;
const ENTRIES_AT: usize = 20;
const SLOTS_AT: usize = 24;
const ZERO_AT: usize = 26;
const INDEX_CHECKSUM_AT: usize = 28;
const HEADER_CHECKSUM_AT: usize = 32;

/// A header that passed its tests.
pub(crate) struct Header {
    /// The capacity is not in the file: the largest one stands for it.
    pub settings: Settings,
    pub closed: u32,
    pub end: u32,
    pub entries: u32,
}

/// The tests of refusal 11: room for a header, mark, byte 3 and version.
pub(crate) fn has_form(bytes: &[u8]) -> bool {
    bytes.len() >= HEADER_LENGTH
        && bytes[..FORM.len()] == FORM
        && u16_at(bytes, VERSION_AT) == VERSION
}

/// The tests of refusal 12 that look at the header alone. The bytes have the form.
pub(crate) fn header(bytes: &[u8]) -> Option<Header> {
    let settings = Settings {
        page_size: u32_at(bytes, PAGE_SIZE_AT),
        slots: u16_at(bytes, SLOTS_AT).into(),
        lag: u16_at(bytes, LAG_AT).into(),
        capacity: Settings::MAX_CAPACITY,
    };
    let header = Header {
        settings,
        closed: u32_at(bytes, CLOSED_AT),
        end: u32_at(bytes, END_AT),
        entries: u32_at(bytes, ENTRIES_AT),
    };
    let sound = checksum(&bytes[..HEADER_CHECKSUM_AT]) == u32_at(bytes, HEADER_CHECKSUM_AT)
        && settings.within_limits()
        && u16_at(bytes, ZERO_AT) == 0
        && header.end <= settings.capacity
        && header.entries as usize <= index_entries(settings);
    sound.then_some(header)
}

/// The tests of refusal 12 that look at the index. The bytes reach to its end.
pub(crate) fn index_is_sound(header: &Header, bytes: &[u8]) -> bool {
    let (index, spare) = index(header, bytes);
    let mut held = NO_PLACES;
    rows::pages_ascend_below(index, header.end)
        && rows::mark_places(index, image_places(header.settings), &mut held)
        && index
            .iter()
            .all(|row| rows::last_change(row) <= header.closed)
        && spare.iter().all(|row| *row == [0; ENTRY_LENGTH])
        && checksum(index.as_flattened()) == u32_at(bytes, INDEX_CHECKSUM_AT)
}

/// The entries and the spare entries.
pub(crate) fn index<'a>(header: &Header, bytes: &'a [u8]) -> (&'a [Row], &'a [Row]) {
    let (rows, _) = bytes[HEADER_LENGTH..held_length(header.settings)].as_chunks();
    rows.split_at(header.entries as usize)
}

/// Writes the index with its spare entries as zeros, then the header.
pub(crate) fn put(settings: Settings, closed: u32, end: u32, entries: &[Entry], side: &mut [u8]) {
    let (header, index) = side[..held_length(settings)].split_at_mut(HEADER_LENGTH);
    let (rows, _) = index.as_chunks_mut();
    let (used, spare) = rows.split_at_mut(entries.len());
    for (row, entry) in used.iter_mut().zip(entries) {
        entry.put_index_part(row);
    }
    spare.fill([0; ENTRY_LENGTH]);
    header[..FORM.len()].copy_from_slice(&FORM);
    put_u16(header, VERSION_AT, VERSION);
    put_u16(header, LAG_AT, settings.lag as u16);
    put_u32(header, PAGE_SIZE_AT, settings.page_size);
    put_u32(header, CLOSED_AT, closed);
    put_u32(header, END_AT, end);
    put_u32(header, ENTRIES_AT, entries.len() as u32);
    put_u16(header, SLOTS_AT, settings.slots as u16);
    put_u16(header, ZERO_AT, 0);
    put_u32(header, INDEX_CHECKSUM_AT, checksum(used.as_flattened()));
    put_u32(
        header,
        HEADER_CHECKSUM_AT,
        checksum(&header[..HEADER_CHECKSUM_AT]),
    );
}
