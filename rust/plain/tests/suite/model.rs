//! A recorder written from the definitions of document 01 with maps, lists and time stamps instead
//! of tables and an order of use. It answers for lawful recordings only, knows every byte they must
//! leave, and is slow.

use std::collections::BTreeMap;

use crate::support::{put_number, Bench};
use plain::*;

#[derive(Clone, Copy)]
struct Slot {
    page: u32,
    changed: bool,
    used_at: u64,
}

#[derive(Clone, Copy)]
struct Entry {
    place: u32,
    change: u64,
    entered: u64,
    sum: u32,
}

#[derive(Clone)]
pub struct Model {
    s: Settings,
    end: u32,
    closed: u64,
    clock: u64,
    slots: Vec<Option<Slot>>,
    entries: BTreeMap<u32, Entry>,
    retired: BTreeMap<u32, u64>,
    meta: Counts,
    raw: Counts,
    base: Vec<u8>,
    side: Vec<u8>,
    pages: Vec<u8>,
    kinds: Vec<u8>,
}

impl Model {
    /// The model of an open on this bench, which is not opened yet.
    pub fn open(bench: &Bench, s: Settings, end: u32, tick: u32) -> Model {
        let mut model = Model {
            s,
            end,
            closed: u64::from(tick),
            clock: 0,
            slots: vec![None; s.slots as usize],
            entries: BTreeMap::new(),
            retired: BTreeMap::new(),
            meta: Counts::default(),
            raw: Counts::default(),
            base: bench.base.clone(),
            side: bench.side.clone(),
            pages: bench.pages.clone(),
            kinds: bench.kinds.clone(),
        };
        model.publish();
        model
    }

    fn lag(&self) -> u64 {
        u64::from(self.s.lag)
    }

    fn page(&self) -> usize {
        self.s.page_size as usize
    }

    fn slot_of(&self, page: u32) -> Option<usize> {
        self.slots
            .iter()
            .position(|slot| slot.is_some_and(|slot| slot.page == page))
    }

    fn is_clean(&self, slot: Slot) -> bool {
        let owed = self
            .entries
            .get(&slot.page)
            .is_some_and(|entry| entry.entered + self.lag() > self.closed);
        !slot.changed && !owed
    }

    /// Gives the page a slot and counts the eviction, or answers None.
    fn claim(&mut self, page: u32) -> Option<usize> {
        let empty = self.slots.iter().position(Option::is_none);
        let chosen = empty.or_else(|| {
            let clean = (0..self.slots.len())
                .filter(|&i| self.slots[i].is_some_and(|slot| self.is_clean(slot)));
            clean.min_by_key(|&i| self.slots[i].map(|slot| slot.used_at))
        })?;
        self.meta.evictions += u32::from(empty.is_none());
        self.slots[chosen] = Some(Slot {
            page,
            changed: false,
            used_at: 0,
        });
        self.use_slot(chosen, false);
        Some(chosen)
    }

    fn use_slot(&mut self, index: usize, change: bool) {
        self.clock += 1;
        let now = self.clock;
        if let Some(slot) = &mut self.slots[index] {
            slot.used_at = now;
            slot.changed |= change;
        }
    }

    fn refusal(&self, page: u32, offset: u32, length: usize) -> u32 {
        if page >= self.end {
            4
        } else if length == 0 || offset as usize + length > self.page() {
            6
        } else {
            0
        }
    }

    /// The slot of the page after a hit or a load, counted.
    fn reach(&mut self, page: u32) -> Option<usize> {
        if let Some(slot) = self.slot_of(page) {
            self.meta.accesses += 1;
            self.meta.hits += 1;
            self.use_slot(slot, false);
            return Some(slot);
        }
        let slot = self.claim(page)?;
        self.meta.accesses += 1;
        self.meta.misses += 1;
        let (from, to, length) = (page as usize * self.page(), slot * self.page(), self.page());
        self.pages[to..to + length].copy_from_slice(&self.base[from..from + length]);
        Some(slot)
    }

    pub fn read(&mut self, page: u32, offset: u32, length: usize) -> (u32, Vec<u8>) {
        let refusal = self.refusal(page, offset, length);
        if refusal != 0 {
            return (refusal, Vec::new());
        }
        let in_base = page as usize * self.page() + offset as usize;
        let from_base = self.base[in_base..in_base + length].to_vec();
        if self.kinds[page as usize] == 1 {
            self.raw.bypasses += 1;
            return (0, from_base);
        }
        match self.reach(page) {
            Some(slot) => {
                let at = slot * self.page() + offset as usize;
                (0, self.pages[at..at + length].to_vec())
            }
            None => {
                self.meta.bypasses += 1;
                (0, from_base)
            }
        }
    }

    pub fn write(&mut self, page: u32, offset: u32, from: &[u8]) -> u32 {
        let refusal = self.refusal(page, offset, from.len());
        if refusal != 0 {
            return refusal;
        }
        if self.kinds[page as usize] == 1 {
            self.raw.bypasses += 1;
            let at = page as usize * self.page() + offset as usize;
            self.base[at..at + from.len()].copy_from_slice(from);
            return 0;
        }
        let Some(slot) = self.reach(page) else {
            return 7;
        };
        self.use_slot(slot, true);
        let at = slot * self.page() + offset as usize;
        self.pages[at..at + from.len()].copy_from_slice(from);
        0
    }

    pub fn grow(&mut self, kind: u32) -> u32 {
        if kind > 1 {
            return 5;
        }
        if self.end == self.s.capacity {
            return 8;
        }
        if kind == 1 {
            let at = self.end as usize * self.page();
            let length = self.page();
            self.base[at..at + length].fill(0);
        } else {
            let Some(slot) = self.claim(self.end) else {
                return 7;
            };
            self.use_slot(slot, true);
            let at = slot * self.page();
            let length = self.page();
            self.pages[at..at + length].fill(0);
        }
        self.kinds[self.end as usize] = kind as u8;
        self.end += 1;
        0
    }

    fn image(&self, page: u32) -> Vec<u8> {
        let slot = self.slot_of(page).expect("a page to be written has a slot");
        self.pages[slot * self.page()..(slot + 1) * self.page()].to_vec()
    }

    pub fn close(&mut self) -> u32 {
        if self.closed == u64::from(u32::MAX) {
            return 9;
        }
        let now = self.closed + 1;
        let lag = self.lag();
        let mut changed: Vec<u32> = self
            .slots
            .iter()
            .flatten()
            .filter(|slot| slot.changed)
            .map(|slot| slot.page)
            .collect();
        changed.sort_unstable();
        let held = |place: &u32| self.entries.values().any(|entry| entry.place == *place);
        let rests = |place: &u32| {
            self.retired
                .get(place)
                .is_some_and(|since| since + lag > now)
        };
        let free: Vec<u32> = (0..image_places(self.s) as u32)
            .filter(|place| !held(place) && !rests(place))
            .collect();
        let leaves =
            |page: &u32, entry: &Entry| entry.change + lag + 1 == now && !changed.contains(page);
        let leaving: Vec<u32> = self
            .entries
            .iter()
            .filter(|(page, entry)| leaves(page, entry))
            .map(|(page, _)| *page)
            .collect();
        let entering = changed
            .iter()
            .filter(|page| !self.entries.contains_key(page))
            .count();
        if free.len() < changed.len()
            || self.entries.len() - leaving.len() + entering > index_entries(self.s)
        {
            return 10;
        }
        self.retired.retain(|_, since| *since + lag > now);
        for page in leaving {
            let entry = self.entries.remove(&page).expect("it is there");
            self.retired.insert(entry.place, now);
        }
        for (&page, &place) in changed.iter().zip(&free) {
            let image = self.image(page);
            let at = self.images_start() + place as usize * self.page();
            self.side[at..at + image.len()].copy_from_slice(&image);
            let old = self.entries.get(&page).copied();
            if let Some(old) = old {
                self.retired.insert(old.place, now);
            }
            let entered = old.map_or(now, |old| old.entered);
            self.entries.insert(
                page,
                Entry {
                    place,
                    change: now,
                    entered,
                    sum: hashlittle(&image, 0),
                },
            );
        }
        for (page, entry) in self.entries.clone() {
            let due = entry.entered + lag;
            if due == now || due < now && entry.change == now {
                let image = self.image(page);
                let at = page as usize * self.page();
                self.base[at..at + image.len()].copy_from_slice(&image);
            }
        }
        self.slots
            .iter_mut()
            .flatten()
            .for_each(|slot| slot.changed = false);
        self.closed = now;
        self.publish();
        0
    }

    fn images_start(&self) -> usize {
        let mut start = 0;
        while start < 36 + 16 * index_entries(self.s) {
            start += self.page();
        }
        start
    }

    fn publish(&mut self) {
        let mut index = Vec::new();
        for (page, entry) in &self.entries {
            for number in [*page, entry.place, entry.change as u32, entry.sum] {
                index.extend_from_slice(&number.to_le_bytes());
            }
        }
        let sum = hashlittle(&index, 0);
        index.resize(16 * index_entries(self.s), 0);
        let mut header = b"TWL\0\x01\0".to_vec();
        header.extend_from_slice(&(self.s.lag as u16).to_le_bytes());
        for number in [
            self.s.page_size,
            self.closed as u32,
            self.end,
            self.entries.len() as u32,
            self.s.slots,
            sum,
        ] {
            header.extend_from_slice(&number.to_le_bytes());
        }
        let sum = hashlittle(&header, 0);
        header.extend_from_slice(&sum.to_le_bytes());
        self.side[..36].copy_from_slice(&header);
        self.side[36..36 + index.len()].copy_from_slice(&index);
    }

    fn ledger(&self) -> Vec<u8> {
        let mut ledger = vec![0; ledger_length(self.s)];
        for (row, (page, entry)) in self.entries.iter().enumerate() {
            let numbers = [
                *page,
                entry.place,
                entry.change as u32,
                entry.sum,
                entry.entered as u32,
            ];
            for (field, number) in numbers.into_iter().enumerate() {
                put_number(&mut ledger, row * 20 + field * 4, number);
            }
        }
        for (&place, &since) in &self.retired {
            let at = 20 * index_entries(self.s) + 8 * place as usize;
            put_number(&mut ledger, at, 1);
            put_number(&mut ledger, at + 4, since as u32);
        }
        ledger
    }

    /// The bench holds exactly what the model says.
    pub fn assert_describes(&self, bench: &Bench) {
        let state = bench.state;
        assert_eq!(
            (state.settings, state.end, u64::from(state.closed)),
            (self.s, self.end, self.closed)
        );
        assert_eq!(
            (state.entries as usize, state.meta, state.raw),
            (self.entries.len(), self.meta, self.raw)
        );
        for row in 0..16 {
            let slot = self.slots.get(row).copied().flatten();
            assert_eq!(state.slots.pages[row], slot.map_or(EMPTY, |slot| slot.page));
            assert_eq!(
                state.slots.changed[row],
                slot.map_or(0, |slot| u8::from(slot.changed))
            );
        }
        let mut by_use: Vec<Slot> = self.slots.iter().flatten().copied().collect();
        by_use.sort_unstable_by_key(|slot| slot.used_at);
        assert!(
            bench
                .order()
                .iter()
                .eq(by_use.iter().map(|slot| &slot.page)),
            "order of use"
        );
        assert!(
            bench.ledger[..ledger_length(self.s)] == self.ledger(),
            "ledger"
        );
        assert!(bench.base == self.base, "base");
        assert!(bench.side == self.side, "side file");
        assert!(bench.pages == self.pages, "page buffer");
        assert!(bench.kinds == self.kinds, "kind table");
    }
}
