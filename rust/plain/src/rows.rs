//! Index rows: rows of one width that begin with page and image place.
//!
//! The recorder's entries (20 bytes in the ledger) and the desk's (16 bytes in the held buffer or
//! the side file) are such rows, and both must ascend by page and hold distinct places. The search
//! and the tests are written once, with the width as a parameter.

use crate::bytes::u32_at;
use crate::settings::Settings;

/// One mark for each image place any settings can have.
pub(crate) type PlaceTable = [bool; Settings::MAX_PLACES];

pub(crate) const NO_PLACES: PlaceTable = [false; Settings::MAX_PLACES];

pub(crate) fn page(row: &[u8]) -> u32 {
    u32_at(row, 0)
}

pub(crate) fn place(row: &[u8]) -> u32 {
    u32_at(row, 4)
}

pub(crate) fn last_change(row: &[u8]) -> u32 {
    u32_at(row, 8)
}

pub(crate) fn checksum(row: &[u8]) -> u32 {
    u32_at(row, 12)
}

/// True if the pages ascend strictly and all lie below `end`.
pub(crate) fn pages_ascend_below<const W: usize>(rows: &[[u8; W]], end: u32) -> bool {
    let mut least = 0;
    for row in rows {
        let page = page(row);
        if page < least || page >= end {
            return false;
        }
        least = page + 1;
    }
    true
}

/// Marks each row's place in the table. False if one is not below `places` or was marked before.
pub(crate) fn mark_places<const W: usize>(
    rows: &[[u8; W]],
    places: usize,
    table: &mut PlaceTable,
) -> bool {
    for row in rows {
        let place = place(row) as usize;
        if place >= places || table[place] {
            return false;
        }
        table[place] = true;
    }
    true
}

/// The row of a page among rows that ascend.
pub(crate) fn find<const W: usize>(rows: &[[u8; W]], wanted: u32) -> Option<&[u8; W]> {
    let at = rows.binary_search_by_key(&wanted, |row| page(row)).ok()?;
    rows.get(at)
}
