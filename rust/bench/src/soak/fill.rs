//! Brings a recording to its bounds: X entries in the index, then M image places in use.
//!
//! A page that enters the index keeps its slot for L ticks, so X pages cannot enter one after the other. But a page that
//! entered long ago is free again right after the close of a change, and its entry stays for L + 1 ticks from then. So pages
//! are let in a few at a time, as slots allow, and every entry is changed again in the tick in which it would leave, until
//! L·S have entered. In L ticks all of them are changed once, S in each; the tick after, S new pages enter: X entries. These
//! are changed in each of the next L ticks while the others leave: none of the (2L + 1)·S images of that time is reusable.

use replay::version::State;

use crate::recording::Recording;

/// More ticks than the letting in takes at any settings.
const PATIENCE: u32 = 5000;

struct Entry {
    page: u32,
    changed: u32,
    entered: u32,
}

fn number(bytes: &[u8], at: usize) -> u32 {
    bytes[at..at + 4].iter().rev().fold(0, |number, &byte| number << 8 | u32::from(byte))
}

fn entries(recording: &Recording) -> Vec<Entry> {
    let rows = recording.both.files[1].ledger.chunks(20).take(recording.both.state.entries as usize);
    rows.map(|row| Entry { page: number(row, 0), changed: number(row, 8), entered: number(row, 16) }).collect()
}

/// Places held by entries, and retired ones that are not reusable yet.
fn places_in_use(recording: &Recording) -> u32 {
    let State { settings, entries, .. } = recording.both.state;
    let at = 20 * plain::index_entries(settings);
    let retired = recording.both.files[1].ledger[at..].chunks(8).filter(|row| number(row, 0) != 0);
    entries + retired.count() as u32
}

pub fn fill(recording: &mut Recording) -> Result<(), String> {
    let settings = recording.settings();
    while recording.both.state.end < settings.capacity {
        recording.grow()?;
        recording.close()?;
    }
    empty(recording)?;
    if !let_in(recording)? {
        return Err("the pages could not be let into the index".to_string());
    }
    for turn in 0..settings.lag {
        let mut all = entries(recording);
        all.sort_by_key(|entry| entry.changed);
        let turn_ends = recording.both.state.closed - turn;
        let due = all.iter().filter(|entry| entry.changed <= turn_ends).take(settings.slots as usize);
        change(recording, due.map(|entry| entry.page).collect())?;
    }
    let new = newcomers(recording, settings.slots as usize);
    change(recording, new.clone())?;
    full("entries", recording.both.state.entries, plain::index_entries(settings))?;
    recording.tally.full_indexes += 1;
    for _ in 0..settings.lag {
        change(recording, new.clone())?;
    }
    full("places in use", places_in_use(recording), plain::image_places(settings))?;
    recording.tally.full_places += 1;
    Ok(())
}

fn full(what: &str, got: u32, wanted: usize) -> Result<(), String> {
    if got as usize == wanted {
        Ok(())
    } else {
        Err(format!("{got} {what}, where {wanted} can be reached"))
    }
}

/// Closes until every entry has left and every place is reusable.
fn empty(recording: &mut Recording) -> Result<(), String> {
    for _ in 0..3 * recording.settings().lag {
        recording.close()?;
    }
    Ok(())
}

fn change(recording: &mut Recording, pages: Vec<u32>) -> Result<(), String> {
    for page in pages {
        if !recording.write(page)? {
            return Err(format!("no slot for page {page} while the index is filled"));
        }
    }
    recording.close()
}

/// The lowest metadata pages without an entry.
fn newcomers(recording: &Recording, most: usize) -> Vec<u32> {
    let known = entries(recording);
    let kinds = &recording.both.files[1].kinds;
    let free = (0..recording.both.state.end)
        .filter(|&page| kinds[page as usize] == 0 && known.iter().all(|entry| entry.page != page));
    free.take(most).collect()
}

/// Lets pages in until L·S have entries and none is owed. No tick has S changes before the last page enters: the next one
/// could not keep its slot over it.
fn let_in(recording: &mut Recording) -> Result<bool, String> {
    let settings = recording.settings();
    let wanted = (settings.lag * settings.slots) as usize;
    for _ in 0..PATIENCE {
        let all = entries(recording);
        let closed = recording.both.state.closed;
        if all.len() == wanted && all.iter().all(|entry| entry.entered + settings.lag <= closed) {
            return Ok(true);
        }
        let tick = closed + 1;
        let mut pages: Vec<u32> =
            all.iter().filter(|entry| leaving(entry, settings.lag) == tick).map(|entry| entry.page).collect();
        let missing = wanted - all.len();
        let kept_free = usize::from(missing > 1);
        let room =
            room(&all, settings.lag, settings.slots, tick).min(settings.slots as usize - pages.len() - kept_free);
        pages.extend(newcomers(recording, room.min(missing)));
        change(recording, pages)?;
    }
    Ok(false)
}

fn leaving(entry: &Entry, lag: u32) -> u32 {
    entry.changed + lag + 1
}

/// How many pages can enter in a tick: as many slots as are free in it and in the L ticks after it, beside those of owed
/// pages and of pages that must be changed again.
fn room(all: &[Entry], lag: u32, slots: u32, tick: u32) -> usize {
    let taken = |at: u32| all.iter().filter(|entry| leaving(entry, lag) == at || entry.entered + lag >= at).count();
    (tick..=tick + lag).map(|at| (slots as usize).saturating_sub(taken(at))).min().unwrap_or(0)
}
