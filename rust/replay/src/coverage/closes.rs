//! The close: what enters, changes, leaves; which places are retired, given again or not yet; what
//! reaches the base.

use super::{Step, Tally};
use crate::fields::{Entry, Fields};
use crate::judge::Cause;
use crate::run::World;
use crate::script::Call;

const NO_CHANGE: &str = "a close of a tick without changes";
const ENTERS: &str = "an entry enters";
const CHANGES: &str = "an entry changes again, its old place is retired";
const LEAVES: &str = "an entry leaves, its place is retired";
const LEAVES_EMPTY: &str = "the last entry leaves";
const SAVED: &str = "an entry of leaving age stays because it changed";
const YOUNG: &str = "an entry one tick short of leaving stays";
const OLD: &str = "an entry past leaving age stays";
const GIVEN: &str = "a place is given again L ticks after it was retired";
const GIVEN_LATE: &str = "a place is given again more than L ticks after it was retired";
const TOO_EARLY: &str = "a place one tick short of reuse is passed over";
const OWN_PLACE: &str = "a place that this close retires is passed over";
const FORGOTTEN: &str = "a place becomes reusable and is not given";
const SEVERAL: &str = "several changed pages get places";
const DUE: &str = "the base is written L ticks after entry, page unchanged";
const DUE_CHANGED: &str = "the base is written L ticks after entry, page changed";
const DUE_LATER: &str = "the base is written more than L ticks after entry, page changed";
const NOT_DUE: &str = "the base is not written for a page changed before it is due";
const NOT_AGAIN: &str = "the base is not written again for an entry past due and unchanged";
const FULL: &str = "a close leaves X entries";
const MOST: &str = "a close leaves 144 entries, the most there are";
const HIGHEST: &str = "a close gives place 271, the last there is";
const LAST_PLACE: &str = "a close gives the last reusable place";
const GROWN: &str = "a page grown in the tick gets an entry";
const EMPTY_FILE: &str = "a close with e = 0";
const NO_PLACES: &str = "close 10: too few reusable places";
const NO_ENTRIES: &str = "close 10: more than X entries";

const NAMES: [&str; 27] = [
    NO_CHANGE,
    ENTERS,
    CHANGES,
    LEAVES,
    LEAVES_EMPTY,
    SAVED,
    YOUNG,
    OLD,
    GIVEN,
    GIVEN_LATE,
    TOO_EARLY,
    OWN_PLACE,
    FORGOTTEN,
    SEVERAL,
    DUE,
    DUE_CHANGED,
    DUE_LATER,
    NOT_DUE,
    NOT_AGAIN,
    FULL,
    MOST,
    HIGHEST,
    LAST_PLACE,
    GROWN,
    EMPTY_FILE,
    NO_PLACES,
    NO_ENTRIES,
];

pub fn names() -> Vec<String> {
    NAMES.map(String::from).to_vec()
}

pub fn observe(step: &Step, tally: &mut Tally) {
    if *step.call != Call::Close {
        return;
    }
    if let Some((given, left)) = step.worked() {
        observe_entries(given, left, tally);
        observe_places(given, left, tally);
        observe_base(step, given, left, tally);
        let grown = |entry: &Entry| {
            step.side_header().is_some_and(|header| entry.page >= u64::from(header.end))
        };
        tally.hit_if(left.entries.iter().any(grown), GROWN);
        tally.hit_if(given.end == 0, EMPTY_FILE);
    }
    if let (Some(given), true) = (&step.given, step.refused_only(Cause::NoRoom)) {
        let few = reusable(given) < given.changed_pages().len();
        tally.hit(if few { NO_PLACES } else { NO_ENTRIES });
    }
}

/// Places that the next close may give.
fn reusable(given: &Fields) -> usize {
    let kept = given.retired.iter().filter(|retired| !given.is_reusable(retired)).count();
    (given.layout().image_places() as usize).saturating_sub(given.entries.len() + kept)
}

/// When an entry unchanged since leaves.
fn leaving_tick(fields: &Fields, entry: &Entry) -> u64 {
    fields.lagged(entry.last_change) + 1
}

fn observe_entries(given: &Fields, left: &Fields, tally: &mut Tally) {
    let closed = left.tick;
    let changed = given.changed_pages();
    tally.hit_if(changed.is_empty(), NO_CHANGE);
    tally.hit_if(changed.len() > 1, SEVERAL);
    tally.hit_if(left.entries.iter().any(|entry| given.entry_of(entry.page).is_none()), ENTERS);
    tally.hit_if(left.entries.len() as u64 == left.layout().index_entries(), FULL);
    tally.hit_if(left.entries.len() == 144, MOST);
    tally.hit_if(left.entries.is_empty() && !given.entries.is_empty(), LEAVES_EMPTY);
    for old in &given.entries {
        match left.entry_of(old.page) {
            None => tally.hit(LEAVES),
            Some(new) if new.last_change == closed => {
                tally.hit_if(is_retired(left, old.place, closed), CHANGES);
                tally.hit_if(leaving_tick(given, old) == closed, SAVED);
            }
            Some(_) => {
                tally.hit_if(leaving_tick(given, old) == closed + 1, YOUNG);
                tally.hit_if(leaving_tick(given, old) < closed, OLD);
            }
        }
    }
}

fn is_retired(fields: &Fields, place: u64, tick: u64) -> bool {
    fields.retired.iter().any(|retired| retired.place == place && retired.tick == tick)
}

fn observe_places(given: &Fields, left: &Fields, tally: &mut Tally) {
    let closed = left.tick;
    let new: Vec<u64> = left
        .entries
        .iter()
        .filter(|entry| entry.last_change == closed)
        .map(|entry| entry.place)
        .collect();
    let highest = new.iter().copied().max();
    tally.hit_if(highest == Some(271), HIGHEST);
    for retired in &given.retired {
        let age = given.lagged(retired.tick);
        let is_given = new.contains(&retired.place);
        tally.hit_if(is_given && age == closed, GIVEN);
        tally.hit_if(is_given && age < closed, GIVEN_LATE);
        tally.hit_if(!is_given && age == closed, FORGOTTEN);
        tally.hit_if(age == closed + 1 && highest > Some(retired.place), TOO_EARLY);
    }
    let retired_now = left.retired.iter().filter(|retired| retired.tick == closed);
    let passed = retired_now.filter(|retired| highest > Some(retired.place)).count();
    tally.hit_if(passed > 0, OWN_PLACE);
    tally.hit_if(!new.is_empty() && new.len() == reusable(given), LAST_PLACE);
}

/// Judged by bytes: the page in the base before and after, against the page's slot.
fn observe_base(step: &Step, given: &Fields, left: &Fields, tally: &mut Tally) {
    let closed = left.tick;
    for entry in &left.entries {
        let Some(slot) = given.slot_of(entry.page) else {
            continue;
        };
        let was = base_page(step.before, given, entry.page);
        let is = base_page(step.after, given, entry.page);
        let buffered = slot_page(step.after, given, slot);
        let (written, kept) = (was != is && is == buffered, was == is && is != buffered);
        let (due, changed) = (given.lagged(entry.entry_tick), entry.last_change == closed);
        tally.hit_if(written && due == closed && !changed, DUE);
        tally.hit_if(written && due == closed && changed, DUE_CHANGED);
        tally.hit_if(written && due < closed && changed, DUE_LATER);
        tally.hit_if(kept && due > closed && changed, NOT_DUE);
        tally.hit_if(kept && due < closed && !changed, NOT_AGAIN);
    }
}

fn base_page<'a>(world: &'a World, fields: &Fields, page: u64) -> &'a [u8] {
    let size = fields.page_size as usize;
    &world.buffers.base.lent()[page as usize * size..][..size]
}

fn slot_page<'a>(world: &'a World, fields: &Fields, slot: usize) -> &'a [u8] {
    let size = fields.page_size as usize;
    &world.buffers.pages.lent()[slot * size..][..size]
}
