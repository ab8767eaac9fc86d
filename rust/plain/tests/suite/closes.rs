//! Close beyond the example: places, forged rows, and the largest ticks.

use crate::support::*;

#[test]
fn places_go_lowest_first_to_the_lowest_page() {
    let mut bench = Bench::opened(settings(512, 4, 3, 10), &[0; 8], 10);
    for page in [7, 2, 5, 0] {
        assert_eq!(bench.write(page, 0, &[page as u8]), 0);
    }
    assert_eq!(bench.close(), 0);
    assert_eq!(
        bench.index(),
        [
            [0, 0, 11, 11],
            [2, 1, 11, 11],
            [5, 2, 11, 11],
            [7, 3, 11, 11]
        ]
    );
    // A superseded place is not given in the same close.
    for page in [7, 0] {
        assert_eq!(bench.write(page, 0, &[9]), 0);
    }
    assert_eq!(bench.close(), 0);
    assert_eq!(
        bench.index(),
        [
            [0, 4, 12, 11],
            [2, 1, 11, 11],
            [5, 2, 11, 11],
            [7, 5, 12, 11]
        ]
    );
    assert_eq!(bench.retired(), [(0, 12), (3, 12)]);
    // Two ticks later neither is; after L ticks both are, with the lowest to the lowest page.
    for _ in 13..15 {
        assert_eq!(bench.close(), 0);
    }
    for page in [5, 2] {
        assert_eq!(bench.write(page, 0, &[8]), 0);
    }
    assert_eq!(bench.close(), 0);
    assert_eq!(
        bench.index(),
        [
            [0, 4, 12, 11],
            [2, 0, 15, 11],
            [5, 3, 15, 11],
            [7, 5, 12, 11]
        ]
    );
    assert_eq!(bench.retired(), [(1, 15), (2, 15)]);
}

#[test]
fn a_page_written_every_tick_reaches_the_base_from_the_lag_on() {
    let mut bench = Bench::example();
    for tick in 1..=20_u8 {
        assert_eq!(bench.write(2, 0, &[100 + tick; 512]), 0);
        assert_eq!(bench.close(), 0);
        let expected = if tick < 4 { 3 } else { 100 + tick };
        assert_eq!(bench.base_page(2), [expected; 512], "close {tick}");
        assert_eq!(bench.index()[0][2..], [u32::from(tick), 1]);
    }
}

#[test]
fn an_entry_changed_when_it_would_leave_stays() {
    let mut bench = Bench::example();
    assert_eq!(bench.write(2, 0, &[70; 512]), 0);
    for _ in 1..=4 {
        assert_eq!(bench.close(), 0);
    }
    assert_eq!(bench.write(2, 0, &[71; 512]), 0);
    assert_eq!(bench.close(), 0);
    assert_eq!(bench.index(), [[2, 1, 5, 1]]);
    assert_eq!(bench.retired(), [(0, 5)]);
    assert_eq!(bench.base_page(2), [71; 512]);
}

#[test]
fn a_page_that_left_enters_anew() {
    let mut bench = Bench::example();
    assert_eq!(bench.write(2, 0, &[70; 512]), 0);
    for _ in 1..=5 {
        assert_eq!(bench.close(), 0);
    }
    assert_eq!(bench.write(2, 0, &[71; 512]), 0);
    assert_eq!(bench.close(), 0);
    assert_eq!(bench.index(), [[2, 1, 6, 6]]);
    assert_eq!(bench.base_page(2), [70; 512]);
}

/// Settings 512, 2, 3 with nine pages and closed tick 20: a state to forge rows in.
fn quiet() -> Bench {
    Bench::opened(example_settings(16), &[0; 12], 20)
}

#[test]
fn an_entry_older_than_the_lag_stays() {
    let mut bench = quiet();
    bench.state.entries = 3;
    bench.set_entry_row(0, [1, 5, 16, 111, 3]);
    bench.set_entry_row(1, [4, 6, 17, 222, 17]);
    bench.set_entry_row(2, [6, 7, 18, 333, 2]);
    let before = bench.clone();
    assert_eq!(bench.close(), 0);
    // Last change 17 leaves at 21. The one at 16 should have left at 20 and stays for good.
    assert_eq!(bench.entries(), [[1, 5, 16, 111, 3], [6, 7, 18, 333, 2]]);
    assert_eq!(bench.retired(), [(6, 21)]);
    assert_eq!(bench.entry_row(2), [0; 5]);
    assert!(
        bench.base == before.base,
        "an entry that leaves or was due before is not written to the base"
    );
}

#[test]
fn an_unchanged_entry_keeps_the_checksum_of_the_state() {
    let mut bench = Bench::example();
    assert_eq!(bench.write(2, 0, &[70; 512]), 0);
    assert_eq!(bench.close(), 0);
    let mut row = bench.entry_row(0);
    row[3] ^= 1;
    bench.set_entry_row(0, row);
    assert_eq!(bench.close(), 0);
    assert_eq!(bench.entry_row(0), row);
    assert_eq!(number_at(&bench.side, 48), row[3]);
    // Takes accept it, for they judge no image; a read of the page does not.
    let held = bench.take();
    assert_eq!(bench.desk_read(&held, 2, 0, 1).number, 14);
}

#[test]
fn place_rows_after_a_close() {
    let mut bench = quiet();
    bench.set_place_row(0, [7, 18]);
    bench.set_place_row(1, [9, 19]);
    bench.set_place_row(2, [0, 77]);
    bench.set_place_row(3, [0xffff_ff00, 20]);
    bench.set_place_row(13, [1, 0]);
    // Garbage from the count on is not judged and is gone after the close.
    bench.set_entry_row(7, [4_294_967_295; 5]);
    assert_eq!(bench.write(4, 0, &[1]), 0);
    assert_eq!(bench.close(), 0);
    // 18 + 3 is reached at 21, so place 0 is given and its row cleared.
    assert_eq!(bench.index(), [[4, 0, 21, 21]]);
    assert_eq!(bench.place_row(0), [0, 0]);
    assert_eq!(bench.place_row(1), [9, 19]);
    assert_eq!(bench.place_row(2), [0, 0]);
    assert_eq!(bench.place_row(3), [0xffff_ff00, 20]);
    assert_eq!(bench.place_row(13), [0, 0]);
    assert_eq!(bench.entry_row(7), [0; 5]);
}

#[test]
fn the_last_ticks() {
    let last = 4_294_967_295;
    let mut bench = Bench::opened(example_settings(8), &[0; 4], last - 3);
    assert_eq!(bench.write(2, 0, &[70; 512]), 0);
    for tick in [last - 2, last - 1] {
        assert_eq!(bench.close(), 0);
        assert_eq!(bench.state.closed, tick);
    }
    assert_eq!(bench.write(2, 0, &[71; 512]), 0);
    assert_eq!(bench.close(), 0);
    assert_eq!(bench.index(), [[2, 1, last, last - 2]]);
    // Entry tick plus lag lies above the largest tick: owed, and never due.
    assert_eq!(bench.base_page(2), [DIRT; 512]);
    assert_eq!(bench.close(), 9);
    let held = bench.take();
    assert_eq!(bench.desk_read(&held, 2, 0, 512).bytes, [71; 512]);
    assert_eq!(bench.read(0, 0, 1).0, 0);
    assert_eq!(bench.read(1, 0, 1).0, 0);
    assert_eq!(
        bench.state.slots.pages[..2],
        [2, 1],
        "page 2 is owed and keeps its slot"
    );
}

#[test]
fn a_due_forged_entry_without_change_is_written_only_at_its_tick() {
    // Entry tick plus lag is 21 exactly: owed at 20, so the rules ask for a slot, and the base is
    // written.
    let mut bench = quiet();
    assert_eq!(bench.read(5, 0, 1).0, 0);
    bench.pages[..512].fill(90);
    bench.state.entries = 1;
    bench.set_entry_row(0, [5, 3, 20, 1234, 18]);
    assert_eq!(bench.close(), 0);
    assert_eq!(bench.base_page(5), [90; 512]);
    assert_eq!(bench.entries(), [[5, 3, 20, 1234, 18]]);
    // A tick later it is past due: other bytes in its slot stay there unless marked as a change.
    bench.pages[..512].fill(91);
    assert_eq!(bench.close(), 0);
    assert_eq!(bench.base_page(5), [90; 512]);
    bench.state.slots.changed[0] = 1;
    assert_eq!(bench.close(), 0);
    assert_eq!(bench.base_page(5), [91; 512]);
}

#[test]
fn room_in_index_and_places_is_judged_after_leaving() {
    // The index is full, one entry leaves and one page enters: accepted.
    let mut bench = quiet();
    bench.state.entries = 8;
    for row in 0..8 {
        let change = if row == 3 { 17 } else { 10 };
        bench.set_entry_row(row as usize, [row, row, change, 0, 5]);
    }
    assert_eq!(bench.write(9, 0, &[1]), 0);
    let full = bench.clone();
    assert_eq!(bench.close(), 0);
    assert_eq!(bench.state.entries, 8);
    assert_eq!(bench.retired(), [(3, 21)]);
    // With the leaving page changed instead of leaving there is no room for page 9.
    let mut bench = full;
    assert_eq!(bench.write(3, 0, &[1]), 0);
    assert_eq!(bench.close(), 10);
}
