//! Counts and ticks at their ends.

use super::{Step, Tally};
use crate::fields::{Fields, ACCESSES, BYPASSES, EVICTIONS, HITS, MISSES};
use crate::layout::{LAST_COUNT, LAST_TICK};
use crate::script::Call;

const COUNTS: [&str; 5] = ["accesses", "hits", "misses", "evictions", "bypasses"];
const REACHES: &str = "a count reaches 4294967295";
const RAW_STAYS: &str = "raw bypasses stay at 4294967295";
const LAST_CLOSE: &str = "a close of tick 4294967295";
const OWED_PAST_END: &str = "a page stays owed because its entry tick plus L is above 4294967295";
const RETIRED_PAST_END: &str = "a place stays retired because its tick plus L is above 4294967295";

pub fn names() -> Vec<String> {
    let mut names: Vec<String> = COUNTS.map(stays).to_vec();
    names.extend(
        [REACHES, RAW_STAYS, LAST_CLOSE, OWED_PAST_END, RETIRED_PAST_END].map(String::from),
    );
    names
}

fn stays(count: &str) -> String {
    format!("metadata {count} stay at 4294967295")
}

pub fn observe(step: &Step, tally: &mut Tally) {
    let Some((given, left)) = step.worked() else {
        return;
    };
    for count in raised(step, given, left) {
        let stays_there = given.meta[count] == LAST_COUNT && left.meta[count] == LAST_COUNT;
        tally.hit_if(stays_there, stays(COUNTS[count]));
    }
    let counts = given.meta.iter().zip(&left.meta).chain(given.raw.iter().zip(&left.raw));
    tally.hit_if(
        counts.into_iter().any(|(was, is)| *was + 1 == LAST_COUNT && *is == LAST_COUNT),
        REACHES,
    );
    tally.hit_if(
        bypasses_raw(step) && given.raw[BYPASSES] == LAST_COUNT && given.raw == left.raw,
        RAW_STAYS,
    );
    if *step.call == Call::Close {
        tally.hit_if(left.tick == LAST_TICK, LAST_CLOSE);
    }
    let owed = given.entries.iter().any(|entry| given.lagged(entry.entry_tick) > LAST_TICK);
    tally.hit_if(owed, OWED_PAST_END);
    tally.hit_if(
        given.retired.iter().any(|retired| given.lagged(retired.tick) > LAST_TICK),
        RETIRED_PAST_END,
    );
}

fn kind_of_page(step: &Step) -> Option<u8> {
    let (page, _, _) = step.span()?;
    step.before.buffers.kinds.lent().get(page as usize).copied()
}

fn bypasses_raw(step: &Step) -> bool {
    kind_of_page(step) == Some(1)
}

/// The metadata counts that the call raises, by what it did to the slots.
fn raised(step: &Step, given: &Fields, left: &Fields) -> Vec<usize> {
    let evicts = given.slots.iter().flatten().any(|&page| left.slot_of(page).is_none());
    let mut counts = if evicts { vec![EVICTIONS] } else { Vec::new() };
    if let (Some((page, _, _)), Some(0)) = (step.span(), kind_of_page(step)) {
        let page = u64::from(page);
        match (given.slot_of(page), left.slot_of(page)) {
            (Some(_), _) => counts.extend([ACCESSES, HITS]),
            (None, Some(_)) => counts.extend([ACCESSES, MISSES]),
            (None, None) => counts.push(BYPASSES),
        }
    }
    counts
}
