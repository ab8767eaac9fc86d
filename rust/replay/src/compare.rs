//! Two versions side by side. A script is played on both, call by call; after each call everything is compared: the
//! answer, the whole state struct, what was handed out, and every byte of the ledger and of the six buffers; after a desk's
//! call also what both say of the side file and of the held buffer. The first difference ends it, so both versions are given
//! the same at every call.

use std::fmt;

use crate::buffers::{Buffers, Name};
use crate::fronts;
use crate::run::{Handed, Machine, Reply, World};
use crate::script::{self, Call, Item, ScriptError};
use crate::version::{Counts, Settings, Slots, State, Version};

/// A version, and what a difference calls it.
#[derive(Clone, Copy)]
pub struct Named {
    pub name: &'static str,
    pub version: Version,
}

/// How a comparison ended.
#[derive(Debug, PartialEq, Eq)]
pub enum Outcome {
    /// All calls of the script did the same.
    Same {
        calls: usize,
    },
    Different(Difference),
}

/// The first difference: the call, the field or byte, and what the two versions left there.
#[derive(Debug, PartialEq, Eq)]
pub struct Difference {
    pub line: usize,
    pub call: &'static str,
    pub spot: Spot,
    pub names: [&'static str; 2],
}

/// A field or a byte, with its two values.
#[derive(Debug, PartialEq, Eq)]
pub struct Spot {
    pub place: String,
    pub values: [u64; 2],
}

impl fmt::Display for Difference {
    fn fmt(&self, out: &mut fmt::Formatter) -> fmt::Result {
        let Difference { line, call, spot: Spot { place, values }, names } = self;
        let [(one, at_one), (other, at_other)] = [0, 1].map(|i| (names[i], values[i]));
        write!(out, "line {line}, {call}: {place} is {at_one} on {one} and {at_other} on {other}")
    }
}

/// Plays a script on both versions until they differ.
pub fn compare(two: [Named; 2], text: &str) -> Result<Outcome, ScriptError> {
    let mut machines = two.map(|named| Machine::new(named.version));
    let mut calls = 0;
    for line in script::parse(text)? {
        let replies = play_on_both(&mut machines, &line.item)
            .map_err(|message| ScriptError { line: line.number, message })?;
        if let (Item::Call(call), Some(replies)) = (&line.item, replies) {
            let spot = first_spot(&replies, &machines).or_else(|| in_fronts(call, &machines));
            if let Some(spot) = spot {
                let names = two.map(|named| named.name);
                let call = call.word();
                return Ok(Outcome::Different(Difference { line: line.number, call, spot, names }));
            }
            calls += 1;
        }
    }
    Ok(Outcome::Same { calls })
}

fn play_on_both(machines: &mut [Machine; 2], item: &Item) -> Result<Option<[Reply; 2]>, String> {
    let [one, other] = machines;
    Ok(one.play(item)?.zip(other.play(item)?).map(|(one, other)| [one, other]))
}

fn first_spot([one, other]: &[Reply; 2], machines: &[Machine; 2]) -> Option<Spot> {
    number("answer", one.number, other.number)
        .or_else(|| in_states(one.state.as_ref()?, other.state.as_ref()?))
        .or_else(|| in_handed(&one.handed, &other.handed))
        .or_else(|| in_worlds(&machines[0].world, &machines[1].world))
}

/// What both say of the side file and of the held buffer, which are the same bytes on both.
fn in_fronts(call: &Call, machines: &[Machine; 2]) -> Option<Spot> {
    if !matches!(call, Call::Take | Call::Refresh | Call::DeskRead { .. }) {
        return None;
    }
    let desks = [0, 1].map(|i| machines[i].version.desk);
    let Buffers { side, held, .. } = &machines[0].world.buffers;
    fronts::first_spot("side", side.lent(), desks)
        .or_else(|| fronts::first_spot("held", held.lent(), desks))
}

pub(crate) fn number(place: &str, one: impl Into<u64>, other: impl Into<u64>) -> Option<Spot> {
    let values = [one.into(), other.into()];
    (values[0] != values[1]).then(|| Spot { place: place.to_string(), values })
}

fn in_bytes(place: &str, one: &[u8], other: &[u8]) -> Option<Spot> {
    if one == other {
        return None;
    }
    let at = one.iter().zip(other).position(|(one, other)| one != other);
    match at {
        Some(at) => number(&format!("{place}[{at}]"), one[at], other[at]),
        None => number(&format!("length of {place}"), one.len() as u64, other.len() as u64),
    }
}

fn in_states(one: &State, other: &State) -> Option<Spot> {
    if one == other {
        return None;
    }
    let pairs = fields(one).into_iter().zip(fields(other));
    pairs.into_iter().find_map(|((place, one), (_, other))| number(&place, one, other))
}

fn in_handed(one: &Handed, other: &Handed) -> Option<Spot> {
    match (one, other) {
        (Handed::Dest(one), Handed::Dest(other)) => in_bytes("dest", one, other),
        (
            Handed::Found { source, offset, bytes },
            Handed::Found { source: source_2, offset: offset_2, bytes: bytes_2 },
        ) => number("source", *source, *source_2)
            .or_else(|| number("offset", *offset as u64, *offset_2 as u64))
            .or_else(|| in_bytes("bytes", bytes, bytes_2)),
        // The call says what is handed out, and it is the same one.
        _ => None,
    }
}

/// The state that is kept, and all lent bytes: those behind the lent part too.
fn in_worlds(one: &World, other: &World) -> Option<Spot> {
    in_states(&one.recorder.state, &other.recorder.state)
        .or_else(|| in_bytes("ledger", &one.recorder.ledger, &other.recorder.ledger))
        .or_else(|| {
            Name::ALL.into_iter().find_map(|name| {
                let [one, other] = [one, other].map(|world| world.buffers.get(name).whole());
                in_bytes(name.word(), one, other)
            })
        })
}

/// Every number of a state, by its name.
fn fields(state: &State) -> Vec<(String, u32)> {
    let State { settings, end, closed, entries, slots, meta, raw } = state;
    let Settings { page_size, slots: slot_count, lag, capacity } = settings;
    let Slots { pages, changed, order, used } = slots;
    let mut all = vec![
        ("state.settings.size".to_string(), *page_size),
        ("state.settings.slots".to_string(), *slot_count),
        ("state.settings.lag".to_string(), *lag),
        ("state.settings.capacity".to_string(), *capacity),
        ("state.end".to_string(), *end),
        ("state.closed".to_string(), *closed),
        ("state.entries".to_string(), *entries),
    ];
    all.extend(listed("pages", pages.iter().copied()));
    all.extend(listed("changed", changed.iter().map(|&flag| u32::from(flag))));
    all.extend(listed("order", order.iter().copied()));
    all.push(("state.slots.used".to_string(), *used));
    all.extend(counted("meta", meta));
    all.extend(counted("raw", raw));
    all
}

fn listed(name: &str, values: impl Iterator<Item = u32>) -> Vec<(String, u32)> {
    values.enumerate().map(|(i, value)| (format!("state.slots.{name}[{i}]"), value)).collect()
}

fn counted(name: &str, counts: &Counts) -> [(String, u32); 5] {
    let Counts { accesses, hits, misses, evictions, bypasses } = *counts;
    [
        ("accesses", accesses),
        ("hits", hits),
        ("misses", misses),
        ("evictions", evictions),
        ("bypasses", bypasses),
    ]
    .map(|(count, value)| (format!("state.{name}.{count}"), value))
}
