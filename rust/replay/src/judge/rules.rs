//! The state rules, each by name: which of them a state breaks.

use crate::fields::{Entry, Fields};
use crate::layout::{CAPACITIES, LAGS, PAGE_SIZES, SLOT_COUNTS};

/// A state rule that can be broken. Rules that two different faults can break are two.
#[derive(Clone, Copy, Debug, PartialEq, Eq)]
pub enum Rule {
    PageSize,
    SlotCount,
    Lag,
    Capacity,
    EndAboveCapacity,
    TooManyEntries,
    SlotPageTwice,
    SlotPageNotBelowEnd,
    PageBeyondTheSlots,
    SlotNotInOrder,
    SlotTwiceInOrder,
    ChangedEmptySlot,
    ChangedBeyondTheSlots,
    EntriesDescend,
    EntryPageTwice,
    EntryPageNotBelowEnd,
    EntryTickAboveLastChange,
    LastChangeAboveClosed,
    OwedPageWithoutSlot,
    PlaceNotBelowM,
    PlaceOfTwoEntries,
    PlaceOfEntryAndRetired,
    RetirementAboveClosed,
    SlotPageNotMetadata,
    EntryPageNotMetadata,
}

impl Rule {
    /// The rules a state line can break in struct and ledger: all but the number of entries, for
    /// which a ledger has no rows.
    pub const FORGED: [Rule; 24] = [
        Rule::PageSize,
        Rule::SlotCount,
        Rule::Lag,
        Rule::Capacity,
        Rule::EndAboveCapacity,
        Rule::SlotPageTwice,
        Rule::SlotPageNotBelowEnd,
        Rule::PageBeyondTheSlots,
        Rule::SlotNotInOrder,
        Rule::SlotTwiceInOrder,
        Rule::ChangedEmptySlot,
        Rule::ChangedBeyondTheSlots,
        Rule::EntriesDescend,
        Rule::EntryPageTwice,
        Rule::EntryPageNotBelowEnd,
        Rule::EntryTickAboveLastChange,
        Rule::LastChangeAboveClosed,
        Rule::OwedPageWithoutSlot,
        Rule::PlaceNotBelowM,
        Rule::PlaceOfTwoEntries,
        Rule::PlaceOfEntryAndRetired,
        Rule::RetirementAboveClosed,
        Rule::SlotPageNotMetadata,
        Rule::EntryPageNotMetadata,
    ];

    pub fn name(self) -> &'static str {
        match self {
            Rule::PageSize => "page size outside its limits",
            Rule::SlotCount => "number of slots outside its limits",
            Rule::Lag => "lag outside its limits",
            Rule::Capacity => "capacity outside its limits",
            Rule::EndAboveCapacity => "e above E",
            Rule::TooManyEntries => "more than X entries",
            Rule::SlotPageTwice => "a page in two slots",
            Rule::SlotPageNotBelowEnd => "a slot page not below e",
            Rule::PageBeyondTheSlots => "a page in a slot from S on",
            Rule::SlotNotInOrder => "a slot missing in the order of use",
            Rule::SlotTwiceInOrder => "a slot twice in the order of use",
            Rule::ChangedEmptySlot => "an empty slot changed",
            Rule::ChangedBeyondTheSlots => "a slot from S on changed",
            Rule::EntriesDescend => "entry pages descending",
            Rule::EntryPageTwice => "an entry page twice",
            Rule::EntryPageNotBelowEnd => "an entry page not below e",
            Rule::EntryTickAboveLastChange => "an entry tick above the last change",
            Rule::LastChangeAboveClosed => "a last change above the closed tick",
            Rule::OwedPageWithoutSlot => "an owed page in no slot",
            Rule::PlaceNotBelowM => "an entry's place not below M",
            Rule::PlaceOfTwoEntries => "a place of two entries",
            Rule::PlaceOfEntryAndRetired => "a place of an entry and retired",
            Rule::RetirementAboveClosed => "a retirement above the closed tick",
            Rule::SlotPageNotMetadata => "a slot page not metadata",
            Rule::EntryPageNotMetadata => "an entry page not metadata",
        }
    }
}

/// The rules broken that need no look into the kind table. With settings outside their limits
/// nothing else can be judged.
pub fn broken(fields: &Fields) -> Vec<Rule> {
    let settings = keep([
        (Rule::PageSize, !PAGE_SIZES.contains(&fields.page_size)),
        (Rule::SlotCount, !SLOT_COUNTS.contains(&fields.slot_count)),
        (Rule::Lag, !LAGS.contains(&fields.lag)),
        (Rule::Capacity, !CAPACITIES.contains(&fields.capacity)),
    ]);
    if !settings.is_empty() {
        return settings;
    }
    let mut rules = keep([
        (Rule::EndAboveCapacity, fields.end > fields.capacity),
        (Rule::TooManyEntries, fields.entries.len() as u64 > fields.layout().index_entries()),
    ]);
    rules.extend(slot_rules(fields));
    rules.extend(entry_rules(fields));
    rules.extend(place_rules(fields));
    rules
}

fn keep<const N: usize>(rules: [(Rule, bool); N]) -> Vec<Rule> {
    rules.into_iter().filter(|&(_, broken)| broken).map(|(rule, _)| rule).collect()
}

fn slot_rules(fields: &Fields) -> Vec<Rule> {
    let (slots, beyond) = fields.slots.split_at(fields.slots.len().min(fields.slot_count as usize));
    let pages: Vec<u64> = slots.iter().flatten().copied().collect();
    let uses = |slot: usize| fields.order.iter().filter(|&&used| used == slot as u64).count();
    let occupied: Vec<usize> = (0..slots.len()).filter(|&slot| slots[slot].is_some()).collect();
    keep([
        (Rule::SlotPageTwice, has_twins(&pages)),
        (Rule::SlotPageNotBelowEnd, pages.iter().any(|&page| page >= fields.end)),
        (Rule::PageBeyondTheSlots, beyond.iter().any(Option::is_some)),
        (Rule::SlotNotInOrder, occupied.iter().any(|&slot| uses(slot) == 0)),
        (Rule::SlotTwiceInOrder, occupied.iter().any(|&slot| uses(slot) > 1)),
        (
            Rule::ChangedEmptySlot,
            changed(fields).any(|slot| slot < fields.slot_count && empty(fields, slot)),
        ),
        (Rule::ChangedBeyondTheSlots, changed(fields).any(|slot| slot >= fields.slot_count)),
    ])
}

fn changed(fields: &Fields) -> impl Iterator<Item = u64> + '_ {
    fields.changed.iter().copied()
}

fn empty(fields: &Fields, slot: u64) -> bool {
    fields.page_in(slot as usize).is_none()
}

fn has_twins(numbers: &[u64]) -> bool {
    let mut sorted = numbers.to_vec();
    sorted.sort_unstable();
    sorted.windows(2).any(|pair| pair[0] == pair[1])
}

fn entry_rules(fields: &Fields) -> Vec<Rule> {
    let entries = &fields.entries;
    let any = |broken: &dyn Fn(&Entry) -> bool| entries.iter().any(broken);
    keep([
        (Rule::EntriesDescend, entries.windows(2).any(|pair| pair[0].page > pair[1].page)),
        (Rule::EntryPageTwice, entries.windows(2).any(|pair| pair[0].page == pair[1].page)),
        (Rule::EntryPageNotBelowEnd, any(&|entry| entry.page >= fields.end)),
        (Rule::EntryTickAboveLastChange, any(&|entry| entry.entry_tick > entry.last_change)),
        (Rule::LastChangeAboveClosed, any(&|entry| entry.last_change > fields.tick)),
        (
            Rule::OwedPageWithoutSlot,
            any(&|entry| fields.is_owed(entry) && fields.slot_of(entry.page).is_none()),
        ),
    ])
}

fn place_rules(fields: &Fields) -> Vec<Rule> {
    let places: Vec<u64> = fields.entries.iter().map(|entry| entry.place).collect();
    let most = fields.layout().image_places();
    keep([
        (Rule::PlaceNotBelowM, places.iter().any(|&place| place >= most)),
        (Rule::PlaceOfTwoEntries, has_twins(&places)),
        (
            Rule::PlaceOfEntryAndRetired,
            fields.retired.iter().any(|retired| places.contains(&retired.place)),
        ),
        (
            Rule::RetirementAboveClosed,
            fields.retired.iter().any(|retired| retired.tick > fields.tick),
        ),
    ])
}

/// The rules broken that do look into it, as far as the kinds go.
pub fn broken_by_kinds(fields: &Fields, kinds: &[u8]) -> Vec<Rule> {
    let other = |page: u64| kinds.get(page as usize).is_some_and(|&kind| kind != 0);
    keep([
        (Rule::SlotPageNotMetadata, fields.slots.iter().flatten().any(|&page| other(page))),
        (Rule::EntryPageNotMetadata, fields.entries.iter().any(|entry| other(entry.page))),
    ])
}
