//! The recorder's ledger, the lent bytes that hold entries and retired places, as the replay reads
//! and writes them: X rows of 20 bytes, then M rows of 8.
//!
//! One length serves all settings within the limits. For settings beyond them the row counts are
//! cut to the largest: such a state is refused before anyone looks at its ledger, so only the
//! replay itself reads it.

use crate::fields::{Entry, Fields, Retired};

const MOST_ENTRIES: u64 = 144;
const MOST_PLACES: u64 = 272;
const ENTRY_ROW: usize = 20;
const PLACE_ROW: usize = 8;

/// The ledger's length, enough for the largest settings.
pub const LENGTH: usize = MOST_ENTRIES as usize * ENTRY_ROW + MOST_PLACES as usize * PLACE_ROW;

/// What stands in bytes that no call has written and none may judge.
pub const FILLER: u8 = 0xee;

/// Entry rows of a ledger for these settings.
pub fn entry_rows(fields: &Fields) -> usize {
    fields.layout().index_entries().min(MOST_ENTRIES) as usize
}

/// Place rows of a ledger for these settings.
pub fn place_rows(fields: &Fields) -> usize {
    fields.layout().image_places().min(MOST_PLACES) as usize
}

/// The ledger of a state, or none where it has no row for an entry or a place, or no room for a
/// number.
pub fn build(fields: &Fields) -> Option<Vec<u8>> {
    let (entries, places) = (entry_rows(fields), place_rows(fields));
    if fields.entries.len() > entries {
        return None;
    }
    let mut ledger = vec![FILLER; LENGTH];
    for (row, entry) in fields.entries.iter().enumerate() {
        put_entry(&mut ledger, row * ENTRY_ROW, entry)?;
    }
    let table = entries * ENTRY_ROW;
    ledger[table..table + places * PLACE_ROW].fill(0);
    for retired in &fields.retired {
        put_retired(&mut ledger, table, places, retired)?;
    }
    Some(ledger)
}

fn put_entry(ledger: &mut [u8], at: usize, entry: &Entry) -> Option<()> {
    put(ledger, at, entry.page)?;
    put(ledger, at + 4, entry.place)?;
    put(ledger, at + 8, entry.last_change)?;
    put(ledger, at + 12, u64::from(entry.checksum))?;
    put(ledger, at + 16, entry.entry_tick)
}

/// A place has one row: one retired twice, or not below M, has nowhere to stand.
fn put_retired(ledger: &mut [u8], table: usize, places: usize, retired: &Retired) -> Option<()> {
    let row = usize::try_from(retired.place).ok().filter(|&row| row < places)?;
    let at = table + row * PLACE_ROW;
    if word(ledger, at) != 0 {
        return None;
    }
    put(ledger, at, 1)?;
    put(ledger, at + 4, retired.tick)
}

fn put(ledger: &mut [u8], at: usize, number: u64) -> Option<()> {
    let number = u32::try_from(number).ok()?;
    ledger[at..at + 4].copy_from_slice(&number.to_le_bytes());
    Some(())
}

/// The first `count` entries.
pub fn entries(ledger: &[u8], fields: &Fields, count: u32) -> Vec<Entry> {
    let count = entry_rows(fields).min(count as usize);
    (0..count).map(|row| entry(ledger, row * ENTRY_ROW)).collect()
}

fn entry(ledger: &[u8], at: usize) -> Entry {
    Entry {
        page: u64::from(word(ledger, at)),
        place: u64::from(word(ledger, at + 4)),
        last_change: u64::from(word(ledger, at + 8)),
        checksum: word(ledger, at + 12),
        entry_tick: u64::from(word(ledger, at + 16)),
    }
}

/// The retired places, ascending, those that the next close may reuse among them.
pub fn retired(ledger: &[u8], fields: &Fields) -> Vec<Retired> {
    let table = entry_rows(fields) * ENTRY_ROW;
    (0..place_rows(fields))
        .map(|row| (row, table + row * PLACE_ROW))
        .filter(|&(_, at)| word(ledger, at) != 0)
        .map(|(row, at)| Retired { place: row as u64, tick: u64::from(word(ledger, at + 4)) })
        .collect()
}

fn word(ledger: &[u8], at: usize) -> u32 {
    u32::from_le_bytes([ledger[at], ledger[at + 1], ledger[at + 2], ledger[at + 3]])
}
