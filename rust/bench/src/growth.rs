//! That no call's cost grows with e or E, but open's judge of the kinds and refresh's marks: the proved calls at two sizes
//! of the file, everything else the same. P = 512, S = 16, L = 8, 16 entries.

use std::hint::black_box;

use crate::clock::{lowest, lowest_of_single, once, Pair};
use crate::forged::{Slotted, World};
use crate::table::Table;
use crate::{ours, side};

const SMALL: u32 = 64;
const LARGE: u32 = 65_535;
const PAGE: u32 = 512;
const ENTRIES: u32 = 16;

fn row(table: &mut Table, name: &str, expected: &str, large_and_small: Pair) {
    let Pair { proved: large, beside: small } = large_and_small;
    table.say(&format!("{name:<36} {small:>10.1} {large:>10.1} {:>6.2} {expected}", large / small));
}

pub fn check(table: &mut Table) {
    table.say(&format!("{:<36} {:>10} {:>10} {:>6}", "proved call", "E=64 ns", "E=65535 ns", "ratio"));
    recorder(table);
    close(table);
    desk(table);
}

fn recorder(table: &mut Table) {
    let mut small = World::new(PAGE, SMALL, ENTRIES, Slotted::Clean);
    let mut large = World::new(PAGE, LARGE, ENTRIES, Slotted::Clean);
    let (s, l) = (ours::state(small.state), ours::state(large.state));
    let (in_small, in_large) = (&mut small.lent(), &mut large.lent());
    let (mut into, mut also) = ([0; 64], [0; 64]);
    for (name, page) in [("read hit", 3), ("read miss with eviction", 40)] {
        let pair = lowest(
            || assert_eq!(ours::read(black_box(l), in_large, page, 0, &mut into).number, 0),
            || assert_eq!(ours::read(black_box(s), in_small, page, 0, &mut also).number, 0),
        );
        row(table, name, "", pair);
    }
    let pair = lowest(
        || assert_eq!(ours::write(black_box(l), in_large, 3, 0, &[7; 64]).number, 0),
        || assert_eq!(ours::write(black_box(s), in_small, 3, 0, &[7; 64]).number, 0),
    );
    row(table, "write hit", "", pair);
    let pair = lowest(
        || assert_eq!(ours::grow(black_box(l), in_large, 0).number, 0),
        || assert_eq!(ours::grow(black_box(s), in_small, 0).number, 0),
    );
    row(table, "grow", "", pair);
    let pair = lowest(
        || assert_eq!(ours::open(black_box(l.settings), l.end, 7, in_large).number, 0),
        || assert_eq!(ours::open(black_box(s.settings), s.end, 7, in_small).number, 0),
    );
    row(table, "open", "judges the kind of each page", pair);
}

fn close(table: &mut Table) {
    let mut small = World::new(PAGE, SMALL, ENTRIES, Slotted::Clean);
    let mut large = World::new(PAGE, LARGE, ENTRIES, Slotted::Clean);
    let (s, l, ledger) = (ours::state(small.state), ours::state(large.state), small.ledger.clone());
    let pair = lowest_of_single(
        || {
            large.ledger.copy_from_slice(&ledger);
            let lent = &mut large.lent();
            once(|| assert_eq!(ours::close(black_box(l), lent).number, 0))
        },
        || {
            small.ledger.copy_from_slice(&ledger);
            let lent = &mut small.lent();
            once(|| assert_eq!(ours::close(black_box(s), lent).number, 0))
        },
    );
    row(table, "close, no page changed", "", pair);
}

fn desk(table: &mut Table) {
    let (small, large) = (side::file(PAGE, SMALL, ENTRIES), side::file(PAGE, LARGE, ENTRIES));
    let base = vec![0; LARGE as usize * PAGE as usize];
    let (mut held_small, mut held_large) = (vec![0; side::HELD], vec![0; side::HELD]);
    let (mut marks, mut also) = (vec![0; SMALL as usize], vec![0; LARGE as usize]);
    let pair = lowest(
        || assert_eq!(proved::take(black_box(&large), &mut held_large), 0),
        || assert_eq!(proved::take(black_box(&small), &mut held_small), 0),
    );
    row(table, "take", "", pair);
    let pair = lowest(
        || assert_eq!(proved::read_part(black_box(&large), &base, &held_large, 1, 0, 64).number, 0),
        || assert_eq!(proved::read_part(black_box(&small), &base, &held_small, 1, 0, 64).number, 0),
    );
    row(table, "desk read, without an entry", "", pair);
    let pair = lowest(
        || assert_eq!(proved::refresh(black_box(&large), &mut held_large, &mut also), 0),
        || assert_eq!(proved::refresh(black_box(&small), &mut held_small, &mut marks), 0),
    );
    row(table, "refresh", "marks each page", pair);
}
