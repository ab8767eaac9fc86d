//! The recorder's state and the rules it must keep (document 01, "State rules").
//!
//! The state is what one call hands to the next: this struct and the lent ledger. A caller can
//! forge both, so each call judges them whole before it relies on them.

use crate::counts::Counts;
use crate::ledger;
use crate::rows::{self, NO_PLACES};
use crate::settings::{image_places, index_entries, ledger_length, Settings};
use crate::slots::{Slots, EMPTY};

/// Kind byte of a metadata page.
pub(crate) const METADATA: u8 = 0;
/// Kind byte of a raw page.
pub(crate) const RAW: u8 = 1;

#[repr(C)]
#[derive(Clone, Copy, PartialEq, Eq, Debug, Default)]
pub struct State {
    pub settings: Settings,
    /// e, pages in the file now.
    pub end: u32,
    /// The closed tick.
    pub closed: u32,
    /// How many entry rows of the ledger are entries.
    pub entries: u32,
    pub slots: Slots,
    pub meta: Counts,
    pub raw: Counts,
}

impl State {
    /// All rules but the two that look into the kind table. Later tests rely on the earlier ones.
    pub(crate) fn keeps_rules(&self, ledger: &[u8]) -> bool {
        self.settings.within_limits()
            && self.end <= self.settings.capacity
            && self.entries as usize <= index_entries(self.settings)
            && ledger.len() >= ledger_length(self.settings)
            && self.slots.keep_rules(self.settings.slots, self.end)
            && self.entries_keep_rules(ledger)
            && self.places_keep_rules(ledger)
    }

    /// Pages ascending below e, entry tick <= last change <= closed tick, every owed page in a
    /// slot.
    fn entries_keep_rules(&self, ledger: &[u8]) -> bool {
        let lag = self.settings.lag;
        rows::pages_ascend_below(ledger::entry_rows(self, ledger), self.end)
            && ledger::entries(self, ledger).all(|entry| {
                entry.entered <= entry.last_change
                    && entry.last_change <= self.closed
                    && (!entry.is_owed(lag, self.closed) || self.slots.find(entry.page).is_some())
            })
    }

    /// Places below M, none held twice by entries and retirements together, retirements not after
    /// the closed tick.
    fn places_keep_rules(&self, ledger: &[u8]) -> bool {
        let mut held = NO_PLACES;
        let entries = ledger::entry_rows(self, ledger);
        rows::mark_places(entries, image_places(self.settings), &mut held)
            && ledger::retirements(self.settings, ledger)
                .zip(&held)
                .all(|(retired, by_entry)| match retired {
                    Some(tick) => !by_entry && tick <= self.closed,
                    None => true,
                })
    }

    /// The two rules left: pages in slots and pages with entries are metadata. The kind table must
    /// reach up to e.
    pub(crate) fn kinds_keep_rules(&self, ledger: &[u8], kinds: &[u8]) -> bool {
        let is_metadata = |page: u32| kinds[page as usize] == METADATA;
        self.slots
            .pages
            .iter()
            .all(|&page| page == EMPTY || is_metadata(page))
            && ledger::entries(self, ledger).all(|entry| is_metadata(entry.page))
    }

    /// The slot for a page that needs one: the lowest empty one, else the clean one used longest
    /// ago.
    pub(crate) fn slot_to_take(&self, ledger: &[u8]) -> Option<usize> {
        self.slots
            .lowest_empty(self.settings.slots)
            .or_else(|| self.oldest_clean(ledger))
    }

    fn oldest_clean(&self, ledger: &[u8]) -> Option<usize> {
        for &page in self.slots.by_use() {
            let slot = self.slots.find(page)?;
            if !self.slots.is_changed(slot) && !self.owes(ledger, page) {
                return Some(slot);
            }
        }
        None
    }

    fn owes(&self, ledger: &[u8], page: u32) -> bool {
        ledger::find_entry(self, ledger, page)
            .is_some_and(|entry| entry.is_owed(self.settings.lag, self.closed))
    }

    /// Gives a slot to a page and counts the eviction, if it is one.
    pub(crate) fn give_slot(&mut self, slot: usize, page: u32) {
        if self.slots.put(slot, page) {
            self.meta.eviction();
        }
    }
}
