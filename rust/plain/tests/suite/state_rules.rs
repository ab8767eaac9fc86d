//! Each state rule broken by itself: every call but open answers 3, and changes nothing. The state
//! before the breach is accepted by all of them, so the breach is the reason.

use crate::support::*;
use plain::*;

/// A state with a bit of everything: S = 4 with one empty slot, clean, owed and changed pages in
/// the others, entries owed and not owed, a retired place, and a raw page.
fn rich() -> Bench {
    let mut bench = Bench::opened(settings(512, 4, 3, 12), &[0, 0, 0, 0, 0, 0, 0, 0, 1], 40);
    for page in [2, 5] {
        assert_eq!(bench.write(page, 0, &[1]), 0);
    }
    assert_eq!(bench.close(), 0);
    assert_eq!(bench.write(5, 0, &[2]), 0);
    assert_eq!(bench.close(), 0);
    assert_eq!(bench.read(1, 0, 1).0, 0);
    assert_eq!(bench.write(2, 0, &[3]), 0);
    // Page 7's entry is not owed, so it needs no slot.
    bench.state.entries = 3;
    bench.set_entry_row(2, [7, 20, 40, 9, 39]);
    bench
}

fn answers(bench: &Bench) -> [u32; 4] {
    [
        bench.clone().read(8, 0, 1).0,
        bench.clone().write(1, 0, &[1]),
        bench.clone().grow(1),
        bench.clone().close(),
    ]
}

#[track_caller]
fn broken_by(breach: impl FnOnce(&mut Bench)) {
    let mut bench = rich();
    breach(&mut bench);
    assert_eq!(answers(&bench), [3; 4]);
}

#[track_caller]
fn kept_by(change: impl FnOnce(&mut Bench)) {
    let mut bench = rich();
    change(&mut bench);
    assert_eq!(answers(&bench), [0; 4]);
}

#[test]
fn the_state_before_any_breach() {
    let bench = rich();
    assert_eq!(
        bench.index(),
        [[2, 0, 41, 41], [5, 2, 42, 41], [7, 20, 40, 39]]
    );
    assert_eq!(bench.retired(), [(1, 42)]);
    assert_eq!(bench.state.slots.pages[..4], [2, 5, 1, EMPTY]);
    assert_eq!(bench.state.slots.changed[..4], [1, 0, 0, 0]);
    assert_eq!(bench.order(), [5, 1, 2]);
    assert_eq!(answers(&bench), [0; 4]);
}

#[test]
fn settings_within_limits() {
    for page_size in [0, 1, 256, 511, 513, 1536, 3072, 8192, 4_294_967_295] {
        broken_by(|bench| bench.state.settings.page_size = page_size);
    }
    for slots in [0, 17, 4_294_967_295] {
        broken_by(|bench| bench.state.settings.slots = slots);
    }
    for lag in [0, 2, 9, 4_294_967_295] {
        broken_by(|bench| bench.state.settings.lag = lag);
    }
    for capacity in [0, 65_536, 4_294_967_295] {
        broken_by(|bench| bench.state.settings.capacity = capacity);
    }
    broken_by(|bench| bench.state = State::default());
}

#[test]
fn ledger_as_long_as_the_settings_ask() {
    let length = ledger_length(rich().state.settings);
    broken_by(|bench| bench.ledger.truncate(length - 1));
    broken_by(|bench| bench.ledger.clear());
    kept_by(|bench| bench.ledger.truncate(length));
}

#[test]
fn end_at_most_capacity() {
    broken_by(|bench| bench.state.end = 13);
    broken_by(|bench| bench.state.end = 4_294_967_295);
    // At the capacity itself only grow refuses, and for another reason.
    let mut bench = rich();
    bench.state.end = 12;
    assert_eq!(answers(&bench), [0, 0, 8, 0]);
}

#[test]
fn at_most_x_entries() {
    let full = |bench: &mut Bench, entries: u32| {
        bench.state.settings.capacity = 40;
        bench.state.end = 39;
        bench.kinds = vec![0; 40];
        bench.kinds[8] = 1;
        bench.base.resize(40 * 512, 0);
        bench.ledger = vec![0; 20_000];
        bench.state.entries = entries;
        for row in 0..entries {
            // Pages 1, 2, 5 have slots and 8 is raw, so the entries begin behind it. A row too many
            // lies over the first three place rows and reads as lawful retirements there; their
            // places are left free for it, so that the number of entries is the only breach.
            bench.set_entry_row(row as usize, [row + 10, row + 3, 10, 0, 10]);
        }
    };
    let mut bench = rich();
    full(&mut bench, 16);
    // No room for the changed page at close: 10, not 3.
    assert_eq!(answers(&bench), [0, 0, 0, 10]);
    broken_by(|bench| full(bench, 17));
    broken_by(|bench| bench.state.entries = 4_294_967_295);
}

#[test]
fn slot_pages_distinct() {
    // Twice in the slots, once in the order.
    broken_by(|bench| bench.state.slots.pages[3] = 1);
    // Twice in both.
    broken_by(|bench| {
        bench.state.slots.pages[3] = 1;
        bench.state.slots.order[3] = 1;
        bench.state.slots.used = 4;
    });
    // A page with another number keeps the rule.
    kept_by(|bench| {
        bench.state.slots.pages[3] = 0;
        bench.state.slots.order[3] = 0;
        bench.state.slots.used = 4;
    });
}

#[test]
fn slot_pages_metadata() {
    broken_by(|bench| bench.kinds[1] = 1);
    broken_by(|bench| bench.kinds[1] = 2);
    broken_by(|bench| bench.kinds[5] = 1);
}

#[test]
fn slot_pages_below_the_end() {
    let with_page_in_slot_3 = |bench: &mut Bench, page: u32| {
        bench.kinds[9] = 0;
        bench.state.slots.pages[3] = page;
        bench.state.slots.order[3] = page;
        bench.state.slots.used = 4;
    };
    for page in [9, 12, 65_535, 4_294_967_294] {
        broken_by(|bench| with_page_in_slot_3(bench, page));
    }
    kept_by(|bench| {
        bench.state.end = 10;
        with_page_in_slot_3(bench, 9);
    });
}

#[test]
fn slot_pages_once_in_the_order_of_use() {
    broken_by(|bench| bench.state.slots.used = 2);
    broken_by(|bench| bench.state.slots.used = 0);
    broken_by(|bench| bench.state.slots.used = 4);
    broken_by(|bench| bench.state.slots.used = 17);
    broken_by(|bench| bench.state.slots.used = 4_294_967_295);
    broken_by(|bench| bench.state.slots.order[1] = 5);
    broken_by(|bench| bench.state.slots.order[1] = 3);
    broken_by(|bench| bench.state.slots.order[1] = EMPTY);
    broken_by(|bench| {
        bench.state.slots.used = 4;
        bench.state.slots.order[3] = EMPTY;
    });
    kept_by(|bench| bench.state.slots.order[..3].reverse());
    // Behind its length the order is not judged.
    kept_by(|bench| bench.state.slots.order[3..].fill(5));
}

#[test]
fn no_slots_from_s_on() {
    broken_by(|bench| bench.state.slots.pages[4] = 0);
    broken_by(|bench| {
        bench.state.slots.pages[15] = 0;
        bench.state.slots.order[3] = 0;
        bench.state.slots.used = 4;
    });
    broken_by(|bench| bench.state.slots.changed[4] = 1);
    broken_by(|bench| bench.state.slots.changed[15] = 128);
}

#[test]
fn changed_only_in_occupied_slots() {
    broken_by(|bench| bench.state.slots.changed[3] = 1);
    broken_by(|bench| bench.state.slots.changed[3] = 255);
    kept_by(|bench| bench.state.slots.changed[2] = 255);
}

#[test]
fn entry_pages_ascending() {
    broken_by(|bench| bench.set_entry_row(2, [5, 20, 40, 9, 39]));
    broken_by(|bench| bench.set_entry_row(2, [4, 20, 40, 9, 39]));
    broken_by(|bench| bench.set_entry_row(2, [0, 20, 40, 9, 39]));
    kept_by(|bench| bench.set_entry_row(2, [6, 20, 40, 9, 39]));
}

#[test]
fn entry_pages_metadata() {
    broken_by(|bench| bench.set_entry_row(2, [8, 20, 40, 9, 39]));
    broken_by(|bench| bench.kinds[7] = 1);
    broken_by(|bench| bench.kinds[7] = 255);
}

#[test]
fn entry_pages_below_the_end() {
    for page in [9, 12, 4_294_967_295] {
        broken_by(|bench| {
            bench.kinds[9] = 0;
            bench.set_entry_row(2, [page, 20, 40, 9, 39]);
        });
    }
}

#[test]
fn entry_tick_last_change_closed_tick() {
    broken_by(|bench| bench.set_entry_row(2, [7, 20, 38, 9, 39]));
    broken_by(|bench| bench.set_entry_row(0, [2, 0, 43, 9, 41]));
    broken_by(|bench| bench.set_entry_row(0, [2, 0, 4_294_967_295, 9, 41]));
    kept_by(|bench| bench.set_entry_row(2, [7, 20, 39, 9, 39]));
    kept_by(|bench| bench.set_entry_row(0, [2, 0, 42, 9, 42]));
}

#[test]
fn owed_pages_in_a_slot() {
    // 40 + 3 is above 42, 39 + 3 is not.
    broken_by(|bench| bench.set_entry_row(2, [7, 20, 40, 9, 40]));
    broken_by(|bench| {
        bench.state.slots.pages[1] = 3;
        bench.state.slots.order[0] = 3;
    });
}

#[test]
fn places_below_m() {
    broken_by(|bench| bench.set_entry_row(2, [7, 28, 40, 9, 39]));
    broken_by(|bench| bench.set_entry_row(2, [7, 272, 40, 9, 39]));
    broken_by(|bench| bench.set_entry_row(2, [7, 4_294_967_295, 40, 9, 39]));
    kept_by(|bench| bench.set_entry_row(2, [7, 27, 40, 9, 39]));
}

#[test]
fn no_place_held_twice() {
    // By two entries, by an entry and a retirement, whatever its age.
    broken_by(|bench| bench.set_entry_row(2, [7, 0, 40, 9, 39]));
    broken_by(|bench| bench.set_entry_row(2, [7, 1, 40, 9, 39]));
    broken_by(|bench| bench.set_place_row(20, [1, 0]));
    broken_by(|bench| bench.set_place_row(20, [0x8000_0000, 42]));
    kept_by(|bench| bench.set_place_row(20, [0, 4_294_967_295]));
}

#[test]
fn retirements_at_most_the_closed_tick() {
    broken_by(|bench| bench.set_place_row(27, [1, 43]));
    broken_by(|bench| bench.set_place_row(1, [1, 4_294_967_295]));
    kept_by(|bench| bench.set_place_row(27, [1, 42]));
    kept_by(|bench| bench.set_place_row(27, [0, 43]));
}

#[test]
fn rows_from_the_count_on_are_not_judged() {
    kept_by(|bench| bench.set_entry_row(3, [4_294_967_295; 5]));
    kept_by(|bench| bench.set_entry_row(15, [2, 0, 41, 9, 41]));
}

#[test]
fn kinds_at_and_above_the_end_are_not_judged() {
    kept_by(|bench| bench.kinds[9..].fill(200));
}
