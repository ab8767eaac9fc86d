//! States that keep the state rules, made up at will: entries of every age, places retired at every
//! age, slots with gaps, and on wish with no slot to give, with no room for a close, or at the last
//! tick.

use super::random::Random;
use super::stage::Stage;
use crate::fields::{Entry, Fields, Retired};
use crate::layout::{LAST_COUNT, LAST_TICK};

/// How near a close is to its refusal for want of room: just room enough, or one place or one entry
/// too few.
#[derive(Clone, Copy, Debug, Default, PartialEq, Eq)]
pub enum Crowd {
    #[default]
    Loose,
    Places {
        over: bool,
    },
    Entries {
        over: bool,
    },
}

/// What a state is wanted for.
#[derive(Clone, Copy, Debug, Default)]
pub struct Wish {
    /// No slot empty or clean.
    pub stuck: bool,
    /// e = E.
    pub full: bool,
    /// The closed tick is the last.
    pub last_tick: bool,
    pub crowd: Crowd,
}

/// A good state. Where the stage has too few pages for the wish, it falls short of it.
pub fn good_state(random: &mut Random, stage: &Stage, kinds: &[u8], wish: Wish) -> Fields {
    let mut fields = stage.fields();
    fields.end = if wish.full { stage.capacity } else { end(random, stage.capacity) };
    fields.tick = if wish.last_tick { LAST_TICK } else { tick(random, stage.layout.lag) };
    let mut pages: Vec<u64> = (0..fields.end).filter(|&page| kinds[page as usize] == 0).collect();
    random.shuffle(&mut pages);
    let mut places: Vec<u64> = (0..stage.layout.image_places()).collect();
    if random.one_in(2) {
        random.shuffle(&mut places);
    }
    fill_slots(random, &mut fields, &mut pages, wish);
    fill_entries(random, &mut fields, &mut pages, &mut places, wish);
    fill_retired(random, &mut fields, &mut places, wish.crowd);
    fields.entries.sort_by_key(|entry| entry.page);
    fields.retired.sort_by_key(|retired| retired.place);
    fill_counts(random, &mut fields);
    fields
}

fn end(random: &mut Random, capacity: u64) -> u64 {
    if random.one_in(8) {
        return random.between(0, capacity);
    }
    capacity - random.below(capacity.min(4))
}

fn tick(random: &mut Random, lag: u64) -> u64 {
    match random.below(10) {
        0 => random.below(lag + 2),
        1..=2 => LAST_TICK - random.between(1, lag + 2),
        3 => random.below(LAST_TICK),
        _ => random.between(lag + 3, 60),
    }
}

fn fill_slots(random: &mut Random, fields: &mut Fields, pages: &mut Vec<u64>, wish: Wish) {
    let most = fields.slot_count as usize;
    let wanted = match (wish.stuck, wish.crowd) {
        (true, _) => most,
        (false, Crowd::Loose) => random.below(most as u64 + 1) as usize,
        _ => random.between(1, most as u64) as usize,
    };
    let mut slots: Vec<Option<u64>> = vec![None; most];
    for slot in slots.iter_mut().take(wanted) {
        *slot = pages.pop();
    }
    if random.one_in(2) {
        random.shuffle(&mut slots);
    }
    let mut occupied: Vec<u64> =
        (0..most as u64).filter(|&slot| slots[slot as usize].is_some()).collect();
    fields.changed = changed_slots(random, &occupied, wish);
    random.shuffle(&mut occupied);
    fields.order = occupied;
    fields.slots = slots;
}

/// All, some or none of the occupied slots. A close that shall want for room needs one.
fn changed_slots(random: &mut Random, occupied: &[u64], wish: Wish) -> Vec<u64> {
    let mut changed = occupied.to_vec();
    match random.below(3) {
        0 => {}
        1 if wish.stuck => changed.clear(),
        _ => changed.retain(|_| random.one_in(2)),
    }
    if wish.crowd != Crowd::Loose && !wish.stuck && changed.is_empty() {
        changed.extend(occupied.first());
    }
    changed
}

/// Entries for some of the pages in slots and some that are in none and not owed any more.
fn fill_entries(
    random: &mut Random,
    fields: &mut Fields,
    pages: &mut Vec<u64>,
    places: &mut Vec<u64>,
    wish: Wish,
) {
    let crowded = matches!(wish.crowd, Crowd::Entries { .. });
    for slot in 0..fields.slots.len() {
        let Some(page) = fields.page_in(slot) else {
            continue;
        };
        let must_be_owed = wish.stuck && !fields.is_changed(slot);
        if must_be_owed || (!crowded && random.one_in(2)) {
            let owed = must_be_owed || random.one_in(2);
            push_entry(random, fields, page, owed, places);
        }
    }
    let wanted = wanted_entries(random, fields, wish.crowd);
    while fields.tick >= fields.lag && fields.entries.len() < wanted {
        let Some(page) = pages.pop() else {
            break;
        };
        push_entry(random, fields, page, false, places);
        if crowded {
            keep_from_leaving(fields);
        }
    }
}

/// How many entries there shall be. A crowded index has rows just enough for the changed pages that
/// enter, or one too few.
fn wanted_entries(random: &mut Random, fields: &Fields, crowd: Crowd) -> usize {
    let most = fields.layout().index_entries() as usize;
    let entering =
        fields.changed_pages().iter().filter(|&&page| fields.entry_of(page).is_none()).count();
    let wanted = match crowd {
        Crowd::Entries { over } => (most + usize::from(over)).saturating_sub(entering),
        _ => random.below(most as u64) as usize,
    };
    wanted.min(most)
}

/// An entry whose last change is the closed tick leaves no row free.
fn keep_from_leaving(fields: &mut Fields) {
    let tick = fields.tick;
    if let Some(entry) = fields.entries.last_mut() {
        entry.last_change = tick;
    }
}

fn push_entry(
    random: &mut Random,
    fields: &mut Fields,
    page: u64,
    owed: bool,
    places: &mut Vec<u64>,
) {
    let (tick, lag) = (fields.tick, fields.lag);
    if places.is_empty() || (!owed && tick < lag) {
        return;
    }
    let place = places.remove(0);
    let entry_tick = if owed {
        random.between((tick + 1).saturating_sub(lag), tick)
    } else {
        tick - lag - random.below(6).min(tick - lag)
    };
    let edge = (tick + 1).saturating_sub(lag).saturating_sub(random.below(4)).max(entry_tick);
    let last_change = *random.pick(&[entry_tick, edge, edge, tick]);
    fields.entries.push(Entry {
        page,
        place,
        last_change,
        entry_tick,
        checksum: random.below(1 << 32) as u32,
    });
}

/// A crowded side file has places just enough for the changed pages, or one too few.
fn fill_retired(random: &mut Random, fields: &mut Fields, places: &mut Vec<u64>, crowd: Crowd) {
    let changed = fields.changed.len();
    let recent = (fields.tick + 2).saturating_sub(fields.lag);
    let (wanted, older) = match crowd {
        Crowd::Places { over } => ((places.len() + usize::from(over)).saturating_sub(changed), 0),
        _ => (random.below(places.len() as u64 / 2 + 1) as usize, 3),
    };
    for place in places.drain(..wanted.min(places.len())) {
        let low = recent.saturating_sub(random.below(older + 1)).min(fields.tick);
        fields.retired.push(Retired { place, tick: random.between(low, fields.tick) });
    }
}

fn fill_counts(random: &mut Random, fields: &mut Fields) {
    for i in 0..5 {
        fields.meta[i] = count(random);
        fields.raw[i] = count(random);
    }
}

fn count(random: &mut Random) -> u64 {
    match random.below(4) {
        0 => LAST_COUNT,
        1 => LAST_COUNT - 1,
        _ => random.below(100),
    }
}
