//! What every accepted call must leave, worked out a second time from document 01 over lists: the
//! whole state, every byte of every buffer, and what the call hands out. Made-up scripts compare it
//! with the plain version.

mod common;

use common::{each_call, Played};
use plain::hashlittle;
use replay::buffers::Buffers;
use replay::fields::{Entry, Fields, Retired, ACCESSES, BYPASSES, EVICTIONS, HITS, MISSES};
use replay::generate::generate;
use replay::layout::LAST_COUNT;
use replay::run::Handed;
use replay::script::Call;
use replay::sidefile::{rows, Header, Row, MARK, VERSION};
use replay::version::Settings;

#[test]
fn accepted_calls_leave_what_the_rules_say() {
    for seed in 400..410 {
        each_call(&generate(seed, 1500), |played| {
            if played.reply.number == 0 {
                check(&played, &format!("seed {seed}, line {}, {:?}", played.line, played.call));
            }
        });
    }
}

fn check(played: &Played, place: &str) {
    let given = played.before.recorder.fields().unwrap_or_default();
    let mut model = Model { fields: given, buffers: played.before.buffers.clone() };
    let handed = model.call(&played.call);
    assert_eq!(played.reply.handed, handed, "{place}");
    assert!(played.after.buffers == model.buffers, "{place}");
    if let Some(fields) = played.after.recorder.fields() {
        assert_eq!(fields.listing(), model.fields.listing(), "{place}");
    }
}

struct Model {
    fields: Fields,
    buffers: Buffers,
}

impl Model {
    fn call(&mut self, call: &Call) -> Handed {
        match *call {
            Call::Open { settings, end, tick } => self.open(settings, end, tick),
            Call::Read { page, offset, length } => {
                return Handed::Dest(self.read(page.into(), offset as usize, length))
            }
            Call::Write { page, offset, ref data } => {
                self.write(page.into(), offset as usize, data)
            }
            Call::Grow { kind } => self.grow(kind as u8),
            Call::Close => self.close(),
            Call::Take => self.take(),
            Call::Refresh => self.refresh(),
            Call::DeskRead { page, offset, length } => {
                return self.desk_read(page, offset as usize, length as usize)
            }
        }
        Handed::Nothing
    }

    fn open(&mut self, settings: Settings, end: u32, tick: u32) {
        self.fields = Fields {
            page_size: settings.page_size.into(),
            slot_count: settings.slots.into(),
            lag: settings.lag.into(),
            capacity: settings.capacity.into(),
            end: end.into(),
            tick: tick.into(),
            ..Fields::default()
        };
        self.write_index();
    }

    fn size(&self) -> usize {
        self.fields.page_size as usize
    }

    fn base_page(&mut self, page: u64) -> &mut [u8] {
        let size = self.size();
        &mut self.buffers.base.lent_mut()[page as usize * size..][..size]
    }

    fn slot_bytes(&mut self, slot: usize) -> &mut [u8] {
        let size = self.size();
        &mut self.buffers.pages.lent_mut()[slot * size..][..size]
    }

    fn is_raw(&self, page: u64) -> bool {
        self.buffers.kinds.lent()[page as usize] == 1
    }

    fn count(&mut self, which: &[usize]) {
        for &i in which {
            self.fields.meta[i] = (self.fields.meta[i] + 1).min(LAST_COUNT);
        }
    }

    fn count_raw_bypass(&mut self) {
        self.fields.raw[BYPASSES] = (self.fields.raw[BYPASSES] + 1).min(LAST_COUNT);
    }

    /// The slot that a page without one gets, if any.
    fn slot_to_take(&self) -> Option<usize> {
        let slots = 0..self.fields.slot_count as usize;
        let is_clean = |slot: &usize| {
            let page = self.fields.page_in(*slot).expect("a page");
            !self.fields.is_changed(*slot) && !self.fields.owes(page)
        };
        let empty = slots.clone().find(|&slot| self.fields.page_in(slot).is_none());
        empty.or_else(|| self.fields.order.iter().map(|&slot| slot as usize).find(is_clean))
    }

    fn use_slot(&mut self, slot: usize) {
        self.fields.order.retain(|&used| used != slot as u64);
        self.fields.order.push(slot as u64);
    }

    /// Puts the page into the slot; an eviction is counted.
    fn occupy(&mut self, slot: usize, page: u64) {
        if self.fields.page_in(slot).is_some() {
            self.count(&[EVICTIONS]);
        }
        if self.fields.slots.len() <= slot {
            self.fields.slots.resize(slot + 1, None);
        }
        self.fields.slots[slot] = Some(page);
        self.use_slot(slot);
    }

    /// The page's slot, with the page loaded if it had none; none if no slot can be had.
    fn access(&mut self, page: u64) -> Option<usize> {
        if let Some(slot) = self.fields.slot_of(page) {
            self.use_slot(slot);
            self.count(&[ACCESSES, HITS]);
            return Some(slot);
        }
        let slot = self.slot_to_take()?;
        self.occupy(slot, page);
        let bytes = self.base_page(page).to_vec();
        self.slot_bytes(slot).copy_from_slice(&bytes);
        self.count(&[ACCESSES, MISSES]);
        Some(slot)
    }

    fn read(&mut self, page: u64, offset: usize, length: usize) -> Vec<u8> {
        if self.is_raw(page) {
            self.count_raw_bypass();
            return self.base_page(page)[offset..offset + length].to_vec();
        }
        match self.access(page) {
            Some(slot) => self.slot_bytes(slot)[offset..offset + length].to_vec(),
            None => {
                self.count(&[BYPASSES]);
                self.base_page(page)[offset..offset + length].to_vec()
            }
        }
    }

    fn write(&mut self, page: u64, offset: usize, data: &[u8]) {
        if self.is_raw(page) {
            self.count_raw_bypass();
            self.base_page(page)[offset..offset + data.len()].copy_from_slice(data);
            return;
        }
        let slot = self.access(page).expect("a slot");
        self.slot_bytes(slot)[offset..offset + data.len()].copy_from_slice(data);
        self.mark_changed(slot);
    }

    fn mark_changed(&mut self, slot: usize) {
        if !self.fields.is_changed(slot) {
            self.fields.changed.push(slot as u64);
        }
    }

    fn grow(&mut self, kind: u8) {
        let page = self.fields.end;
        self.fields.end += 1;
        self.buffers.kinds.lent_mut()[page as usize] = kind;
        if kind == 1 {
            self.base_page(page).fill(0);
            return;
        }
        let slot = self.slot_to_take().expect("a slot");
        self.occupy(slot, page);
        self.slot_bytes(slot).fill(0);
        self.mark_changed(slot);
    }

    fn close(&mut self) {
        let closed = self.fields.tick + 1;
        let changed = self.fields.changed_pages();
        let places = self.reusable_places(closed);
        let before = std::mem::take(&mut self.fields.entries);
        let lag = self.fields.lag;
        let leaves =
            |entry: &Entry| !changed.contains(&entry.page) && entry.last_change + lag + 1 == closed;
        self.fields.retired.retain(|retired| retired.tick + lag > closed);
        for old in before.iter().filter(|old| changed.contains(&old.page) || leaves(old)) {
            self.fields.retired.push(Retired { place: old.place, tick: closed });
        }
        let stays = |entry: &&Entry| !changed.contains(&entry.page) && !leaves(entry);
        let mut entries: Vec<Entry> = before.iter().filter(stays).cloned().collect();
        for (&page, &place) in changed.iter().zip(&places) {
            let entered =
                before.iter().find(|old| old.page == page).map_or(closed, |old| old.entry_tick);
            entries.push(self.new_entry(page, place, closed, entered));
        }
        entries.sort_by_key(|entry| entry.page);
        self.write_base(&entries, closed);
        self.fields.entries = entries;
        self.fields.changed.clear();
        self.fields.tick = closed;
        self.write_index();
    }

    fn reusable_places(&self, closed: u64) -> Vec<u64> {
        let fields = &self.fields;
        let is_held = |place: u64| fields.entries.iter().any(|entry| entry.place == place);
        let is_kept = |place: u64| {
            fields
                .retired
                .iter()
                .any(|retired| retired.place == place && retired.tick + fields.lag > closed)
        };
        (0..fields.layout().image_places())
            .filter(|&place| !is_held(place) && !is_kept(place))
            .collect()
    }

    /// Writes the page's image and names it.
    fn new_entry(&mut self, page: u64, place: u64, closed: u64, entered: u64) -> Entry {
        let slot = self.fields.slot_of(page).expect("a slot");
        let image = self.slot_bytes(slot).to_vec();
        let start = self.fields.layout().image_offset(place) as usize;
        self.buffers.side.lent_mut()[start..start + image.len()].copy_from_slice(&image);
        Entry {
            page,
            place,
            last_change: closed,
            entry_tick: entered,
            checksum: hashlittle(&image, 0),
        }
    }

    fn write_base(&mut self, entries: &[Entry], closed: u64) {
        for entry in entries {
            let due = entry.entry_tick + self.fields.lag;
            if due == closed || (due < closed && entry.last_change == closed) {
                let slot = self.fields.slot_of(entry.page).expect("a slot");
                let bytes = self.slot_bytes(slot).to_vec();
                self.base_page(entry.page).copy_from_slice(&bytes);
            }
        }
    }

    fn write_index(&mut self) {
        let fields = &self.fields;
        let index: Vec<u8> =
            fields.entries.iter().flat_map(|entry| row_of(entry).encode()).collect();
        let mut header = Header {
            mark: MARK,
            byte3: 0,
            version: VERSION,
            lag: fields.lag as u16,
            page_size: fields.page_size as u32,
            closed: fields.tick as u32,
            end: fields.end as u32,
            count: fields.entries.len() as u32,
            slot_count: fields.slot_count as u16,
            zero: 0,
            index_sum: hashlittle(&index, 0),
            header_sum: 0,
        };
        header.header_sum = hashlittle(&header.encode()[..32], 0);
        let mut bytes = header.encode();
        bytes.extend(index);
        bytes.resize(fields.layout().held_length() as usize, 0);
        self.buffers.side.lent_mut()[..bytes.len()].copy_from_slice(&bytes);
    }

    fn side_header(&self) -> Header {
        Header::decode(self.buffers.side.lent()).expect("a header")
    }

    fn held_header(&self) -> Header {
        Header::decode(self.buffers.held.lent()).expect("a header")
    }

    fn take(&mut self) {
        let length = self.side_header().layout().held_length() as usize;
        let bytes = self.buffers.side.lent()[..length].to_vec();
        self.buffers.held.lent_mut()[..length].copy_from_slice(&bytes);
    }

    fn refresh(&mut self) {
        let (new, old) = (self.side_header(), self.held_header());
        let entries = rows(self.buffers.side.lent(), new.count);
        for page in 0..new.end {
            let changed =
                entries.iter().any(|row| row.page == page && row.last_change > old.closed);
            self.buffers.marks.lent_mut()[page as usize] = u8::from(changed);
        }
        self.take();
    }

    fn desk_read(&mut self, page: u32, offset: usize, length: usize) -> Handed {
        let held = self.held_header();
        let entries = rows(self.buffers.held.lent(), held.count);
        let (source, lent, start) = match entries.iter().find(|row| row.page == page) {
            Some(row) => {
                (1, &self.buffers.side, held.layout().image_offset(row.place.into()) as usize)
            }
            None => (0, &self.buffers.base, page as usize * held.page_size as usize),
        };
        let offset = start + offset;
        Handed::Found { source, offset, bytes: lent.lent()[offset..offset + length].to_vec() }
    }
}

fn row_of(entry: &Entry) -> Row {
    Row {
        page: entry.page as u32,
        place: entry.place as u32,
        last_change: entry.last_change as u32,
        checksum: entry.checksum,
    }
}
