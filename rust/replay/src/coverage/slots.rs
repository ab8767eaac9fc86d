//! The page buffer: hits, loads, evictions and what they pass over, reads without a slot, refusals
//! for want of one.

use super::{Step, Tally};
use crate::fields::Fields;
use crate::judge::{has_room, Cause};
use crate::script::Call;

const TAKING: [&str; 3] = ["read", "write", "grow"];
const HIT_MOVES: &str = "a hit moves its slot to the end of the order of use";
const HIT_STAYS: &str = "a hit on the slot used last";
const LOAD_OF_ENTRY: &str = "a page that has an entry is loaded";
const LONGEST_AGO: &str = "the victim is the slot used longest ago";
const PASSES_CHANGED: &str = "the victim search passes a changed slot";
const PASSES_OWED: &str = "the victim search passes an owed slot that is not changed";
const LAST_VICTIM: &str = "the victim is the slot used last";
const EQUAL_BYTES: &str = "a write of equal bytes marks its page changed";
const AGAIN: &str = "a write to a page already changed";
const OWED: &str = "a write to an owed page";
const EVICTED_RAW_GROW: &str = "a raw grow while no slot is empty or clean";
const RAW: [&str; 3] = ["a raw read", "a raw write", "a raw grow"];
const WITHOUT_SLOT: [&str; 3] = [
    "a read without a slot, all slots changed",
    "a read without a slot, all slots owed and not changed",
    "a read without a slot, changed and owed slots",
];

pub fn names() -> Vec<String> {
    let mut names: Vec<String> = Vec::new();
    for word in TAKING {
        names.extend([first_empty(word), empty_below(word), evicts(word)]);
    }
    names.extend(["read", "write"].map(hit));
    for word in ["write", "grow"] {
        names.extend([no_slot(word, "changed"), no_slot(word, "owed and not changed")]);
    }
    names.extend(
        [HIT_MOVES, HIT_STAYS, LOAD_OF_ENTRY, LONGEST_AGO, PASSES_CHANGED, PASSES_OWED]
            .map(String::from),
    );
    names.extend([LAST_VICTIM, EQUAL_BYTES, AGAIN, OWED, EVICTED_RAW_GROW].map(String::from));
    names.extend(RAW.into_iter().chain(WITHOUT_SLOT).map(String::from));
    names
}

fn hit(word: &str) -> String {
    format!("a {word} hits")
}

fn first_empty(word: &str) -> String {
    format!("a {word} takes the first slot after the occupied ones")
}

fn empty_below(word: &str) -> String {
    format!("a {word} takes an empty slot below an occupied one")
}

fn evicts(word: &str) -> String {
    format!("a {word} evicts")
}

fn no_slot(word: &str, why: &str) -> String {
    format!("{word} 7: all slots {why}")
}

pub fn observe(step: &Step, tally: &mut Tally) {
    if let (Some(given), true) = (&step.given, step.refused_only(Cause::NoSlot)) {
        tally.hit_if(all_changed(given), no_slot(step.word(), "changed"));
        tally.hit_if(none_changed(given), no_slot(step.word(), "owed and not changed"));
    }
    let (Some((given, left)), Some(page)) = (step.worked(), page_worked_on(step)) else {
        return;
    };
    if step.after.buffers.kinds.lent().get(page as usize) == Some(&1) {
        observe_raw(step, given, tally);
        return;
    }
    match (given.slot_of(page), left.slot_of(page)) {
        (Some(slot), _) => observe_hit(step, given, slot, tally),
        (None, Some(slot)) => observe_load(step, given, page, slot, tally),
        (None, None) => observe_slotless(given, tally),
    }
}

fn page_worked_on(step: &Step) -> Option<u64> {
    match step.call {
        Call::Grow { .. } => step.given.as_ref().map(|given| given.end),
        Call::Read { page, .. } | Call::Write { page, .. } => Some(u64::from(*page)),
        _ => None,
    }
}

fn all_changed(fields: &Fields) -> bool {
    (0..fields.slot_count as usize).all(|slot| fields.is_changed(slot))
}

fn none_changed(fields: &Fields) -> bool {
    fields.changed.is_empty()
}

fn observe_raw(step: &Step, given: &Fields, tally: &mut Tally) {
    tally.hit(format!("a raw {}", step.word()));
    let grows = matches!(step.call, Call::Grow { .. });
    tally.hit_if(grows && !has_room(given), EVICTED_RAW_GROW);
}

fn observe_hit(step: &Step, given: &Fields, slot: usize, tally: &mut Tally) {
    tally.hit(hit(step.word()));
    let last = given.order.last() == Some(&(slot as u64));
    tally.hit(if last { HIT_STAYS } else { HIT_MOVES });
    if let Call::Write { page, .. } = step.call {
        let was_changed = given.is_changed(slot);
        tally.hit_if(was_changed, AGAIN);
        tally.hit_if(given.owes(u64::from(*page)), OWED);
        let equal = step.before.buffers.pages == step.after.buffers.pages;
        tally.hit_if(!was_changed && equal, EQUAL_BYTES);
    }
}

fn observe_load(step: &Step, given: &Fields, page: u64, slot: usize, tally: &mut Tally) {
    tally.hit_if(given.entry_of(page).is_some(), LOAD_OF_ENTRY);
    if given.page_in(slot).is_some() {
        tally.hit(evicts(step.word()));
        observe_victim(given, slot as u64, tally);
    } else if given.slots.iter().skip(slot).any(Option::is_some) {
        tally.hit(empty_below(step.word()));
    } else {
        tally.hit(first_empty(step.word()));
    }
}

fn observe_victim(given: &Fields, slot: u64, tally: &mut Tally) {
    let Some(passed) = given.order.iter().position(|&used| used == slot) else {
        return;
    };
    tally.hit_if(passed == 0, LONGEST_AGO);
    tally.hit_if(passed > 0 && passed + 1 == given.order.len(), LAST_VICTIM);
    let passed = &given.order[..passed];
    tally.hit_if(passed.iter().any(|&used| given.is_changed(used as usize)), PASSES_CHANGED);
    tally.hit_if(passed.iter().any(|&used| !given.is_changed(used as usize)), PASSES_OWED);
}

fn observe_slotless(given: &Fields, tally: &mut Tally) {
    let index = if all_changed(given) {
        0
    } else if none_changed(given) {
        1
    } else {
        2
    };
    tally.hit(WITHOUT_SLOT[index]);
}
