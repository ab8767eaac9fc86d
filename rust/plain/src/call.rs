//! What all recorder calls have in common: the slices they are lent, the form of their answer, and
//! the tests with which they begin.

use std::ops::Range;

use crate::refusal::{ACCEPTED, SHORT, STATE};
use crate::settings::{side_length, Settings};
use crate::state::State;

/// What the caller lends to each recorder call. Longer slices than the settings ask for are
/// accepted, and their rest is never written.
#[derive(Debug)]
pub struct Lent<'a> {
    /// The lent part of the state: X entry rows of 20 bytes, then M place rows of 8.
    pub ledger: &'a mut [u8],
    /// Page p lies at p·P.
    pub base: &'a mut [u8],
    pub side: &'a mut [u8],
    /// The page buffer: slot i lies at i·P.
    pub pages: &'a mut [u8],
    /// The kind byte of each page.
    pub kinds: &'a mut [u8],
}

impl Lent<'_> {
    pub(crate) fn is_short(&self, settings: Settings) -> bool {
        let page = settings.page_length();
        self.base.len() < settings.capacity as usize * page
            || self.side.len() < side_length(settings)
            || self.pages.len() < settings.slots as usize * page
            || self.kinds.len() < settings.capacity as usize
    }
}

/// A recorder call's answer: 0 and the next state, or a refusal number and the state given (of
/// open: all zero).
#[derive(Clone, Copy, PartialEq, Eq, Debug)]
pub struct Answer {
    pub number: u32,
    pub state: State,
}

impl Answer {
    pub(crate) fn of(given: State, outcome: Result<State, u32>) -> Answer {
        match outcome {
            Ok(state) => Answer {
                number: ACCEPTED,
                state,
            },
            Err(number) => Answer {
                number,
                state: given,
            },
        }
    }
}

/// Where page or slot number `index` lies in the base or the page buffer.
pub(crate) fn page_at(settings: Settings, index: usize) -> Range<usize> {
    let page = settings.page_length();
    index * page..(index + 1) * page
}

/// Tests 3, 2 and again 3, with which every call but open begins.
pub(crate) fn judge(state: &State, lent: &Lent) -> Result<(), u32> {
    if !state.keeps_rules(lent.ledger) {
        return Err(STATE);
    }
    if lent.is_short(state.settings) {
        return Err(SHORT);
    }
    if !state.kinds_keep_rules(lent.ledger, lent.kinds) {
        return Err(STATE);
    }
    Ok(())
}
