//! Breaks one state rule of a good state and leaves the others whole, where the state has what it
//! takes.

use super::random::Random;
use crate::fields::{Entry, Fields, Retired, SLOT_TABLE};
use crate::judge::Rule;
use crate::layout::LAST_TICK;

const FAR: u64 = u32::MAX as u64;

/// Breaks the rule: whether it could. The two rules of the kind table are not for a state line to
/// break.
pub fn break_rule(random: &mut Random, rule: Rule, fields: &mut Fields) -> bool {
    let broken = match rule {
        Rule::PageSize => set(&mut fields.page_size, *random.pick(&[0, 256, 511, 513, 8192, FAR])),
        Rule::SlotCount => set(&mut fields.slot_count, *random.pick(&[0, 17, FAR])),
        Rule::Lag => set(&mut fields.lag, *random.pick(&[0, 2, 9, FAR])),
        Rule::Capacity => set(&mut fields.capacity, *random.pick(&[0, 65_536, FAR])),
        Rule::EndAboveCapacity => set(&mut fields.end, *random.pick(&[fields.capacity + 1, FAR])),
        Rule::SlotPageTwice => slot_page_twice(random, fields),
        Rule::SlotPageNotBelowEnd => slot_page_not_below_end(random, fields),
        Rule::PageBeyondTheSlots => page_beyond_the_slots(random, fields),
        Rule::SlotNotInOrder => fields.order.pop(),
        Rule::SlotTwiceInOrder => slot_twice_in_order(random, fields),
        Rule::ChangedEmptySlot => changed_empty_slot(random, fields),
        Rule::ChangedBeyondTheSlots => changed_beyond_the_slots(random, fields),
        Rule::EntriesDescend => entries_descend(random, fields),
        Rule::EntryPageTwice => entry_page_twice(random, fields),
        Rule::EntryPageNotBelowEnd => entry_page_not_below_end(fields),
        Rule::EntryTickAboveLastChange => entry_tick_above_last_change(random, fields),
        Rule::LastChangeAboveClosed => last_change_above_closed(random, fields),
        Rule::OwedPageWithoutSlot => owed_page_without_slot(random, fields),
        Rule::PlaceNotBelowM => place_not_below_m(random, fields),
        Rule::PlaceOfTwoEntries => place_of_two_entries(fields),
        Rule::PlaceOfEntryAndRetired => place_of_entry_and_retired(random, fields),
        Rule::RetirementAboveClosed => retirement_above_closed(random, fields),
        Rule::TooManyEntries | Rule::SlotPageNotMetadata | Rule::EntryPageNotMetadata => None,
    };
    broken.is_some()
}

/// What a breaker did is of no interest, only that it did.
type Broken = Option<u64>;

fn set(number: &mut u64, to: u64) -> Broken {
    *number = to;
    Some(to)
}

fn empty_slots(fields: &Fields, from: usize, to: usize) -> Vec<usize> {
    (from..to).filter(|&slot| fields.page_in(slot).is_none()).collect()
}

fn occupy(fields: &mut Fields, slot: usize, page: u64) {
    if fields.slots.len() <= slot {
        fields.slots.resize(slot + 1, None);
    }
    fields.slots[slot] = Some(page);
    fields.order.push(slot as u64);
}

/// A slot from S on, slot S more often than not.
fn slot_beyond(random: &mut Random, fields: &Fields) -> Option<usize> {
    let beyond = empty_slots(fields, fields.slot_count as usize, SLOT_TABLE);
    if random.one_in(2) {
        return beyond.first().copied();
    }
    random.pick_any(&beyond)
}

fn slot_page_twice(random: &mut Random, fields: &mut Fields) -> Broken {
    let slot = random.pick_any(&empty_slots(fields, 0, fields.slot_count as usize))?;
    let twin = random.pick_any(&fields.order)?;
    let page = fields.page_in(twin as usize)?;
    occupy(fields, slot, page);
    random.shuffle(&mut fields.order);
    Some(page)
}

fn slot_page_not_below_end(random: &mut Random, fields: &mut Fields) -> Broken {
    let slot = random.pick_any(&empty_slots(fields, 0, fields.slot_count as usize))?;
    let page = *random.pick(&[fields.end, fields.end, FAR - 1]);
    occupy(fields, slot, page);
    Some(page)
}

fn page_beyond_the_slots(random: &mut Random, fields: &mut Fields) -> Broken {
    let slot = slot_beyond(random, fields)?;
    let free: Vec<u64> = (0..fields.end).filter(|&page| fields.slot_of(page).is_none()).collect();
    let page = random.pick_any(&free)?;
    occupy(fields, slot, page);
    if random.one_in(2) {
        fields.order.pop();
    }
    Some(page)
}

fn slot_twice_in_order(random: &mut Random, fields: &mut Fields) -> Broken {
    let slot = random.pick_any(&fields.order).filter(|_| fields.order.len() < SLOT_TABLE)?;
    fields.order.push(slot);
    random.shuffle(&mut fields.order);
    Some(slot)
}

fn changed_empty_slot(random: &mut Random, fields: &mut Fields) -> Broken {
    let slot = random.pick_any(&empty_slots(fields, 0, fields.slot_count as usize))? as u64;
    fields.changed.push(slot);
    Some(slot)
}

fn changed_beyond_the_slots(random: &mut Random, fields: &mut Fields) -> Broken {
    let slot = slot_beyond(random, fields)? as u64;
    fields.changed.push(slot);
    Some(slot)
}

fn entries_descend(random: &mut Random, fields: &mut Fields) -> Broken {
    let first =
        random.below((fields.entries.len() as u64).checked_sub(1).filter(|&pairs| pairs > 0)?);
    fields.entries.swap(first as usize, first as usize + 1);
    Some(first)
}

fn free_place(fields: &Fields) -> Option<u64> {
    let held = |place: u64| {
        fields.entries.iter().any(|entry| entry.place == place)
            || fields.retired.iter().any(|retired| retired.place == place)
    };
    (0..fields.layout().image_places()).find(|&place| !held(place))
}

fn has_row(fields: &Fields) -> bool {
    (fields.entries.len() as u64) < fields.layout().index_entries()
}

fn entry_page_twice(random: &mut Random, fields: &mut Fields) -> Broken {
    let place = free_place(fields).filter(|_| has_row(fields) && !fields.entries.is_empty())?;
    let twin = random.below(fields.entries.len() as u64) as usize;
    let entry = Entry { place, ..fields.entries[twin].clone() };
    fields.entries.insert(twin, entry);
    Some(place)
}

/// A page beyond the end that is not owed: an owed one would need a slot.
fn entry_page_not_below_end(fields: &mut Fields) -> Broken {
    let place = free_place(fields).filter(|_| has_row(fields))?;
    let entry_tick = fields.tick.checked_sub(fields.lag)?;
    let page = fields.end;
    fields.entries.push(Entry { page, place, last_change: fields.tick, entry_tick, checksum: 0 });
    Some(page)
}

/// The entries of pages that are in a slot, or in none.
fn entries_by_slot(fields: &Fields, in_slot: bool) -> Vec<usize> {
    let places = 0..fields.entries.len();
    places.filter(|&i| fields.slot_of(fields.entries[i].page).is_some() == in_slot).collect()
}

fn entry_tick_above_last_change(random: &mut Random, fields: &mut Fields) -> Broken {
    let candidates = entries_by_slot(fields, true);
    let i = random.pick_any(&candidates)?;
    let entry = &mut fields.entries[i];
    entry.entry_tick = (entry.last_change + 1).min(LAST_TICK);
    Some(entry.entry_tick).filter(|&tick| tick > entry.last_change)
}

fn last_change_above_closed(random: &mut Random, fields: &mut Fields) -> Broken {
    let above = fields.tick + 1;
    let candidates: Vec<usize> = (0..fields.entries.len()).collect();
    let i = random.pick_any(&candidates).filter(|_| above <= LAST_TICK)?;
    fields.entries[i].last_change = *random.pick(&[above, LAST_TICK]);
    Some(above)
}

fn owed_page_without_slot(random: &mut Random, fields: &mut Fields) -> Broken {
    let i = random.pick_any(&entries_by_slot(fields, false))?;
    let entry = &mut fields.entries[i];
    entry.entry_tick = (fields.tick + 1).saturating_sub(fields.lag);
    entry.last_change = entry.last_change.max(entry.entry_tick);
    Some(entry.entry_tick)
}

fn place_not_below_m(random: &mut Random, fields: &mut Fields) -> Broken {
    let most = fields.layout().image_places();
    let entry = fields.entries.last_mut()?;
    entry.place = *random.pick(&[most, FAR]);
    Some(entry.place)
}

fn place_of_two_entries(fields: &mut Fields) -> Broken {
    let last = fields.entries.len().checked_sub(1).filter(|&last| last > 0)?;
    fields.entries[last].place = fields.entries[0].place;
    Some(fields.entries[0].place)
}

/// At any age: a place that could be given again is held twice all the same.
fn place_of_entry_and_retired(random: &mut Random, fields: &mut Fields) -> Broken {
    let candidates: Vec<u64> = fields.entries.iter().map(|entry| entry.place).collect();
    let place = random.pick_any(&candidates)?;
    let tick = *random.pick(&[0, fields.tick]);
    fields.retired.push(Retired { place, tick });
    Some(place)
}

fn retirement_above_closed(random: &mut Random, fields: &mut Fields) -> Broken {
    let place = free_place(fields)?;
    let above = Some(fields.tick + 1).filter(|&above| above <= LAST_TICK)?;
    let tick = *random.pick(&[above, LAST_TICK]);
    fields.retired.push(Retired { place, tick });
    Some(tick)
}
