//! The ledger: the lent part of the recorder's state, kept as bytes.
//!
//! First X entry rows of 20 bytes: an index entry as the side file has it, then its entry tick.
//! Then M place rows of 8 bytes: retired (0 or not) and the retirement tick. Only open and close
//! write it. Callers have judged its length and the number of entries.

use std::ops::Range;

use crate::bytes::{put_u32, u32_at};
use crate::rows::{self, PlaceTable};
use crate::settings::{index_entries, ledger_length, Settings};
use crate::state::State;

pub(crate) const ENTRY_ROW: usize = 20;
pub(crate) const PLACE_ROW: usize = 8;

/// An entry row, read out.
#[derive(Clone, Copy, Default)]
pub(crate) struct Entry {
    pub page: u32,
    pub place: u32,
    pub last_change: u32,
    pub checksum: u32,
    pub entered: u32,
}

impl Entry {
    pub(crate) fn of_row(row: &[u8; ENTRY_ROW]) -> Entry {
        Entry {
            page: rows::page(row),
            place: rows::place(row),
            last_change: rows::last_change(row),
            checksum: rows::checksum(row),
            entered: u32_at(row, 16),
        }
    }

    fn put(&self, row: &mut [u8; ENTRY_ROW]) {
        self.put_index_part(row);
        put_u32(row, 16, self.entered);
    }

    /// The first 16 bytes of a row, which are also the entry in the side file.
    pub(crate) fn put_index_part(&self, row: &mut [u8]) {
        put_u32(row, 0, self.page);
        put_u32(row, 4, self.place);
        put_u32(row, 8, self.last_change);
        put_u32(row, 12, self.checksum);
    }

    /// Entry tick plus L: the close from which the base may hold the page. The sum is wider than a
    /// tick.
    pub(crate) fn due(&self, lag: u32) -> u64 {
        u64::from(self.entered) + u64::from(lag)
    }

    /// Owed: the base must still lack this page at the closed tick.
    pub(crate) fn is_owed(&self, lag: u32, closed: u32) -> bool {
        self.due(lag) > u64::from(closed)
    }
}

/// The entry rows in use.
pub(crate) fn entry_rows<'a>(state: &State, ledger: &'a [u8]) -> &'a [[u8; ENTRY_ROW]] {
    let (rows, _) = ledger.as_chunks();
    &rows[..state.entries as usize]
}

pub(crate) fn entries<'a>(state: &State, ledger: &'a [u8]) -> impl Iterator<Item = Entry> + 'a {
    entry_rows(state, ledger).iter().map(Entry::of_row)
}

pub(crate) fn find_entry(state: &State, ledger: &[u8], page: u32) -> Option<Entry> {
    rows::find(entry_rows(state, ledger), page).map(Entry::of_row)
}

/// The retirement tick of each place in turn, None for a place that is not retired.
pub(crate) fn retirements(
    settings: Settings,
    ledger: &[u8],
) -> impl Iterator<Item = Option<u32>> + '_ {
    let (rows, _) = ledger[places(settings)].as_chunks();
    rows.iter().map(retirement)
}

fn retirement(row: &[u8; PLACE_ROW]) -> Option<u32> {
    (u32_at(row, 0) != 0).then(|| u32_at(row, 4))
}

pub(crate) fn clear(settings: Settings, ledger: &mut [u8]) {
    ledger[..ledger_length(settings)].fill(0);
}

/// Writes the entries and zeroes the rows after them.
pub(crate) fn put_entries(settings: Settings, ledger: &mut [u8], entries: &[Entry]) {
    let (rows, _) = ledger[..places(settings).start].as_chunks_mut();
    let (used, spare) = rows.split_at_mut(entries.len());
    for (row, entry) in used.iter_mut().zip(entries) {
        entry.put(row);
    }
    spare.fill([0; ENTRY_ROW]);
}

/// Brings the place rows to a close of `tick`: places it retires, places that stay retired, and
/// zeros for the rest.
pub(crate) fn put_places(settings: Settings, ledger: &mut [u8], retired: &PlaceTable, tick: u32) {
    let (rows, _) = ledger[places(settings)].as_chunks_mut();
    for (row, &retired_now) in rows.iter_mut().zip(retired) {
        if retired_now {
            put_u32(row, 0, 1);
            put_u32(row, 4, tick);
        } else if !retirement(row).is_some_and(|since| rests(settings, since, tick)) {
            row.fill(0);
        }
    }
}

/// A place retired at `since` cannot be used again at `tick`: a desk may still read it.
pub(crate) fn rests(settings: Settings, since: u32, tick: u32) -> bool {
    u64::from(since) + u64::from(settings.lag) > u64::from(tick)
}

/// Where the place rows lie.
fn places(settings: Settings) -> Range<usize> {
    index_entries(settings) * ENTRY_ROW..ledger_length(settings)
}
