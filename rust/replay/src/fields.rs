//! The recorder's state as a script names it: settings, slots, entries, retired places and counts,
//! and the canonical listing whose digest stands in every output line. The numbers are wider than
//! any field of an implementation, because a state line may name a state that no implementation can
//! hold.

use std::fmt::Display;

use crate::layout::Layout;

/// Slots in the slot table of every implementation, whatever its S.
pub const SLOT_TABLE: usize = 16;

/// One entry of the index, with the tick at which it entered.
#[derive(Clone, Debug, Default, PartialEq, Eq)]
pub struct Entry {
    pub page: u64,
    pub place: u64,
    pub last_change: u64,
    pub entry_tick: u64,
    pub checksum: u32,
}

/// An image place that no entry holds any more and that is not yet reusable.
#[derive(Clone, Debug, Default, PartialEq, Eq)]
pub struct Retired {
    pub place: u64,
    pub tick: u64,
}

/// Counts of one kind of page, in the order accesses, hits, misses, evictions, bypasses.
pub type Counts = [u64; 5];
pub const ACCESSES: usize = 0;
pub const HITS: usize = 1;
pub const MISSES: usize = 2;
pub const EVICTIONS: usize = 3;
pub const BYPASSES: usize = 4;

/// The whole state: P, S, L, E, e and the closed tick, then the tables.
#[derive(Clone, Debug, Default, PartialEq, Eq)]
pub struct Fields {
    pub page_size: u64,
    pub slot_count: u64,
    pub lag: u64,
    pub capacity: u64,
    pub end: u64,
    pub tick: u64,
    /// Pages from slot 0 on; slots beyond the last element are empty.
    pub slots: Vec<Option<u64>>,
    /// Numbers of the slots with the changed flag.
    pub changed: Vec<u64>,
    /// Numbers of the occupied slots, the one used longest ago first.
    pub order: Vec<u64>,
    pub entries: Vec<Entry>,
    pub retired: Vec<Retired>,
    pub meta: Counts,
    pub raw: Counts,
}

impl Fields {
    pub fn layout(&self) -> Layout {
        Layout { page_size: self.page_size, slot_count: self.slot_count, lag: self.lag }
    }

    /// The tick that the next close closes.
    pub fn open_tick(&self) -> u64 {
        self.tick.saturating_add(1)
    }

    /// The sum of a tick and the lag, which does not wrap at the largest tick.
    pub fn lagged(&self, tick: u64) -> u64 {
        tick.saturating_add(self.lag)
    }

    pub fn is_owed(&self, entry: &Entry) -> bool {
        self.lagged(entry.entry_tick) > self.tick
    }

    /// Whether the next close may give this retired place to a page again.
    pub fn is_reusable(&self, retired: &Retired) -> bool {
        self.lagged(retired.tick) <= self.open_tick()
    }

    pub fn entry_of(&self, page: u64) -> Option<&Entry> {
        self.entries.iter().find(|entry| entry.page == page)
    }

    pub fn slot_of(&self, page: u64) -> Option<usize> {
        self.slots.iter().position(|&slot| slot == Some(page))
    }

    pub fn page_in(&self, slot: usize) -> Option<u64> {
        self.slots.get(slot).copied().flatten()
    }

    pub fn is_changed(&self, slot: usize) -> bool {
        self.changed.contains(&(slot as u64))
    }

    /// Whether the page has an entry and is still owed to the base.
    pub fn owes(&self, page: u64) -> bool {
        self.entry_of(page).is_some_and(|entry| self.is_owed(entry))
    }

    /// The pages with the changed flag, ascending.
    pub fn changed_pages(&self) -> Vec<u64> {
        let mut pages: Vec<u64> = (0..self.slots.len())
            .filter(|&slot| self.is_changed(slot))
            .filter_map(|slot| self.page_in(slot))
            .collect();
        pages.sort_unstable();
        pages
    }

    /// The canonical listing: the fields of a state line in their fixed order, parted by one space.
    /// A place that the next close may reuse is no different from one never used, so it is left
    /// out: an implementation may forget it at any time between.
    pub fn listing(&self) -> String {
        self.words(&|retired| !self.is_reusable(retired))
    }

    /// The words of a state line that names this state, every retired place among them.
    pub fn naming(&self) -> String {
        self.words(&|_| true)
    }

    fn words(&self, is_listed: &dyn Fn(&Retired) -> bool) -> String {
        [
            format!("P={}", self.page_size),
            format!("S={}", self.slot_count),
            format!("L={}", self.lag),
            format!("E={}", self.capacity),
            format!("e={}", self.end),
            format!("tick={}", self.tick),
            format!("slots={}", list(self.listed_slots())),
            format!("changed={}", list(self.listed_changed())),
            format!("order={}", list(&self.order)),
            format!("entries={}", list(self.entries.iter().map(listed_entry))),
            format!("retired={}", list(self.listed_retired(is_listed))),
            format!("meta={}", list(self.meta)),
            format!("raw={}", list(self.raw)),
        ]
        .join(" ")
    }

    fn listed_slots(&self) -> Vec<String> {
        let occupied = self.slots.iter().rposition(Option::is_some).map_or(0, |last| last + 1);
        self.slots[..occupied].iter().map(listed_slot).collect()
    }

    fn listed_changed(&self) -> Vec<u64> {
        let mut changed = self.changed.clone();
        changed.sort_unstable();
        changed.dedup();
        changed
    }

    fn listed_retired(&self, is_listed: &dyn Fn(&Retired) -> bool) -> Vec<String> {
        let mut listed: Vec<&Retired> =
            self.retired.iter().filter(|retired| is_listed(retired)).collect();
        listed.sort_by_key(|retired| retired.place);
        listed.iter().map(|retired| format!("{}:{}", retired.place, retired.tick)).collect()
    }
}

fn listed_slot(slot: &Option<u64>) -> String {
    slot.map_or_else(|| "-".to_string(), |page| page.to_string())
}

fn listed_entry(entry: &Entry) -> String {
    let Entry { page, place, last_change, entry_tick, checksum } = entry;
    format!("{page}:{place}:{last_change}:{entry_tick}:{checksum:08x}")
}

fn list<T: Display>(items: impl IntoIterator<Item = T>) -> String {
    let items: Vec<String> = items.into_iter().map(|item| item.to_string()).collect();
    if items.is_empty() {
        ".".to_string()
    } else {
        items.join(",")
    }
}
