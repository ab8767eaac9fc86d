//! What two desks say of a side file or of a held buffer: its header, each entry that it counts, and none behind the last.

use crate::compare::{number, Spot};
use crate::version::{DeskCalls, EntryTold, Settings, Told};

/// The first number in which the two differ.
pub fn first_spot(name: &str, front: &[u8], desks: [&dyn DeskCalls; 2]) -> Option<Spot> {
    let headers = desks.map(|desk| header(&desk.header(front)));
    differing(&format!("header of {name}"), headers).or_else(|| {
        let entries = desks[0].header(front).entries;
        (0..=entries).chain([u32::MAX]).find_map(|i| {
            let told = desks.map(|desk| entry(&desk.entry(front, i)));
            differing(&format!("entry {i} of {name}"), told)
        })
    })
}

fn differing<const N: usize>(place: &str, [one, other]: [[(&str, u32); N]; 2]) -> Option<Spot> {
    let mut pairs = one.into_iter().zip(other);
    pairs.find_map(|((field, one), (_, other))| number(&format!("{place}: {field}"), one, other))
}

fn header(told: &Told) -> [(&'static str, u32); 8] {
    let Told { number, tick, end, entries, settings } = *told;
    let Settings { page_size, slots, lag, capacity } = settings;
    [
        ("number", number),
        ("tick", tick),
        ("end", end),
        ("entries", entries),
        ("size", page_size),
        ("slots", slots),
        ("lag", lag),
        ("capacity", capacity),
    ]
}

fn entry(told: &EntryTold) -> [(&'static str, u32); 5] {
    let EntryTold { found, page, place, changed, sum } = *told;
    [("found", found), ("page", page), ("place", place), ("changed", changed), ("sum", sum)]
}
