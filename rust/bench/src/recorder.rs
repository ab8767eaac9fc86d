//! The recorder's calls; P = 4096, S = 16, L = 8, E = 1024, spans of 64 bytes, n entries.

use std::hint::black_box;

use crate::clock::{lowest, lowest_of_single, once};
use crate::forged::{Slotted, World};
use crate::ours;
use crate::table::Table;

const GROUP: &str = "recorder";
const PAGE: u32 = 4096;
const CAPACITY: u32 = 1024;
const CALL_BOUND: f64 = 2.0;
const CLOSE_BOUND: f64 = 1.25;
const SPAN: usize = 64;

/// The same world for either version.
fn worlds(n: u32, slotted: Slotted) -> (World, World) {
    let world = World::new(PAGE, CAPACITY, n, slotted);
    (world.clone(), world)
}

/// Every call begins with the judge of the whole state; a read of page e is refused right behind it.
pub fn judge(table: &mut Table, n: u32) {
    read(table, &format!("the whole judge, n = {n}"), worlds(n, Slotted::Owed), CAPACITY - 1, 4);
}

pub fn hits(table: &mut Table, n: u32) {
    read(table, &format!("read hit, n = {n}"), worlds(n, Slotted::Owed), 3, 0);
    write(table, &format!("write hit, n = {n}"), worlds(n, Slotted::Owed), 3, 0);
}

/// All slots are clean, so that the page takes the place of the one used longest ago.
pub fn misses(table: &mut Table, n: u32) {
    read(table, &format!("read miss with eviction, n = {n}"), worlds(n, Slotted::Clean), 500, 0);
}

fn read(table: &mut Table, name: &str, (mut our, mut their): (World, World), page: u32, number: u32) {
    let (mut into, mut also) = ([0; SPAN], [0; SPAN]);
    let (our_state, state) = (ours::state(our.state), their.state);
    let (ours_lent, theirs_lent) = (&mut our.lent(), &mut their.lent());
    let pair = lowest(
        || assert_eq!(ours::read(black_box(our_state), ours_lent, page, 128, &mut into).number, number),
        || assert_eq!(plain::read(black_box(state), theirs_lent, page, 128, &mut also).number, number),
    );
    assert_eq!(into, also);
    table.row(GROUP, name, "Rust", CALL_BOUND, pair);
}

fn write(table: &mut Table, name: &str, (mut our, mut their): (World, World), page: u32, number: u32) {
    let from = [77; SPAN];
    let (our_state, state) = (ours::state(our.state), their.state);
    let (ours_lent, theirs_lent) = (&mut our.lent(), &mut their.lent());
    let pair = lowest(
        || assert_eq!(ours::write(black_box(our_state), ours_lent, page, 128, &from).number, number),
        || assert_eq!(plain::write(black_box(state), theirs_lent, page, 128, &from).number, number),
    );
    table.row(GROUP, name, "Rust", CALL_BOUND, pair);
}

pub fn grow(table: &mut Table, kind: u32) {
    let (mut our, mut their) = worlds(16, Slotted::Clean);
    let (our_state, state) = (ours::state(our.state), their.state);
    let (ours_lent, theirs_lent) = (&mut our.lent(), &mut their.lent());
    let pair = lowest(
        || assert_eq!(ours::grow(black_box(our_state), ours_lent, kind).number, 0),
        || assert_eq!(plain::grow(black_box(state), theirs_lent, kind).number, 0),
    );
    let kind = if kind == 0 { "metadata, with eviction" } else { "raw" };
    table.row(GROUP, &format!("grow, {kind}"), "Rust", CALL_BOUND, pair);
}

pub fn open(table: &mut Table) {
    let (mut our, mut their) = worlds(0, Slotted::Clean);
    let (our_state, state) = (ours::state(our.state), their.state);
    let (ours_lent, theirs_lent) = (&mut our.lent(), &mut their.lent());
    let pair = lowest(
        || assert_eq!(ours::open(black_box(our_state.settings), our_state.end, 7, ours_lent).number, 0),
        || assert_eq!(plain::open(black_box(state.settings), state.end, 7, theirs_lent).number, 0),
    );
    table.row(GROUP, &format!("open, e = {}", CAPACITY - 1), "Rust", CALL_BOUND, pair);
}

/// The first pages are changed. A close leaves a ledger that no longer fits the state before it, so each starts from the
/// ledger as it was.
pub fn close(table: &mut Table, n: u32, changed: usize) {
    let (mut our, mut their) = worlds(n, Slotted::Clean);
    our.state.slots.changed[..changed].fill(1);
    let (our_state, state, ledger) = (ours::state(our.state), our.state, our.ledger.clone());
    let pair = lowest_of_single(
        || {
            our.ledger.copy_from_slice(&ledger);
            let lent = &mut our.lent();
            once(|| assert_eq!(ours::close(black_box(our_state), lent).number, 0))
        },
        || {
            their.ledger.copy_from_slice(&ledger);
            let lent = &mut their.lent();
            once(|| assert_eq!(plain::close(black_box(state), lent).number, 0))
        },
    );
    assert!(our.ledger == their.ledger && our.side == their.side && our.base == their.base);
    let pages = if changed == 1 { "page" } else { "pages" };
    table.row(GROUP, &format!("close, {changed} {pages} changed, n = {n}"), "Rust", CLOSE_BOUND, pair);
}
