//! The recorder's calls but close: open, read, write and grow (document 01, "What the recorder
//! does").
//!
//! Each call judges in the order of document 01 first and writes only when nothing can refuse any
//! more, so that a refusal leaves every lent byte alone. It works on its own copy of the state; a
//! refusal hands back the given one.

use std::ops::Range;

use crate::call::{judge, page_at, Answer, Lent};
use crate::ledger;
use crate::refusal::{FULL, KIND, NO_SLOT, PAGE, SETTINGS, SHORT};
use crate::settings::{ledger_length, Settings};
use crate::sidefile;
use crate::slots::Slots;
use crate::span;
use crate::state::{State, METADATA, RAW};

/// Starts a recording with tick `tick` closed and `end` pages in the file.
pub fn open(settings: Settings, end: u32, tick: u32, lent: &mut Lent) -> Answer {
    Answer::of(State::default(), try_open(settings, end, tick, lent))
}

fn try_open(settings: Settings, end: u32, tick: u32, lent: &mut Lent) -> Result<State, u32> {
    if !settings.within_limits() || end > settings.capacity {
        return Err(SETTINGS);
    }
    if lent.is_short(settings) || lent.ledger.len() < ledger_length(settings) {
        return Err(SHORT);
    }
    if lent.kinds[..end as usize]
        .iter()
        .any(|&kind| kind != METADATA && kind != RAW)
    {
        return Err(KIND);
    }
    ledger::clear(settings, lent.ledger);
    sidefile::put(settings, tick, end, &[], lent.side);
    Ok(State {
        settings,
        end,
        closed: tick,
        slots: Slots::all_empty(),
        ..State::default()
    })
}

/// Tests 4, 5 and 6 of read and write: the span in its page.
fn judge_span(
    state: &State,
    lent: &Lent,
    page: u32,
    offset: u32,
    length: usize,
) -> Result<Range<usize>, u32> {
    if page >= state.end {
        return Err(PAGE);
    }
    let kind = lent.kinds[page as usize];
    if kind != METADATA && kind != RAW {
        return Err(KIND);
    }
    span::in_page(state.settings.page_size, offset, length as u64)
}

/// Copies a part of a page into `into`.
pub fn read(state: State, lent: &mut Lent, page: u32, offset: u32, into: &mut [u8]) -> Answer {
    Answer::of(state, try_read(state, lent, page, offset, into))
}

fn try_read(
    mut state: State,
    lent: &mut Lent,
    page: u32,
    offset: u32,
    into: &mut [u8],
) -> Result<State, u32> {
    judge(&state, lent)?;
    let span = judge_span(&state, lent, page, offset, into.len())?;
    let in_base = page_at(state.settings, page as usize).start;
    if lent.kinds[page as usize] == RAW {
        state.raw.bypass();
        into.copy_from_slice(&lent.base[span::from(in_base, &span)]);
        return Ok(state);
    }
    match bring_in(&mut state, lent, page) {
        Some(slot) => {
            let in_buffer = page_at(state.settings, slot).start;
            into.copy_from_slice(&lent.pages[span::from(in_buffer, &span)]);
        }
        None => {
            state.meta.bypass();
            into.copy_from_slice(&lent.base[span::from(in_base, &span)]);
        }
    }
    Ok(state)
}

/// Changes a part of a page to `from`.
pub fn write(state: State, lent: &mut Lent, page: u32, offset: u32, from: &[u8]) -> Answer {
    Answer::of(state, try_write(state, lent, page, offset, from))
}

fn try_write(
    mut state: State,
    lent: &mut Lent,
    page: u32,
    offset: u32,
    from: &[u8],
) -> Result<State, u32> {
    judge(&state, lent)?;
    let span = judge_span(&state, lent, page, offset, from.len())?;
    if lent.kinds[page as usize] == RAW {
        state.raw.bypass();
        let in_base = page_at(state.settings, page as usize).start;
        lent.base[span::from(in_base, &span)].copy_from_slice(from);
        return Ok(state);
    }
    let slot = bring_in(&mut state, lent, page).ok_or(NO_SLOT)?;
    let in_buffer = page_at(state.settings, slot).start;
    lent.pages[span::from(in_buffer, &span)].copy_from_slice(from);
    state.slots.changed[slot] = 1;
    Ok(state)
}

/// The slot of a metadata page, loaded from the base if need be, and counted as hit or miss. None,
/// with nothing touched, where there is neither the page nor a slot to take.
fn bring_in(state: &mut State, lent: &mut Lent, page: u32) -> Option<usize> {
    if let Some(slot) = state.slots.find(page) {
        state.slots.touch(page);
        state.meta.hit();
        return Some(slot);
    }
    let slot = state.slot_to_take(lent.ledger)?;
    state.meta.miss();
    state.give_slot(slot, page);
    let from = &lent.base[page_at(state.settings, page as usize)];
    lent.pages[page_at(state.settings, slot)].copy_from_slice(from);
    Some(slot)
}

/// Adds one zero page of the named kind at the end of the file.
pub fn grow(state: State, lent: &mut Lent, kind: u32) -> Answer {
    Answer::of(state, try_grow(state, lent, kind))
}

fn try_grow(mut state: State, lent: &mut Lent, kind: u32) -> Result<State, u32> {
    judge(&state, lent)?;
    let kind = match u8::try_from(kind) {
        Ok(kind @ (METADATA | RAW)) => kind,
        _ => return Err(KIND),
    };
    if state.end == state.settings.capacity {
        return Err(FULL);
    }
    let page = state.end;
    if kind == RAW {
        lent.base[page_at(state.settings, page as usize)].fill(0);
    } else {
        let slot = state.slot_to_take(lent.ledger).ok_or(NO_SLOT)?;
        state.give_slot(slot, page);
        state.slots.changed[slot] = 1;
        lent.pages[page_at(state.settings, slot)].fill(0);
    }
    lent.kinds[page as usize] = kind;
    state.end += 1;
    Ok(state)
}
