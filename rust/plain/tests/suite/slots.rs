//! Slots, order of use and counts, beyond rows e to g.

use crate::support::*;
use plain::*;

/// Four slots, six metadata pages and a raw one, no page loaded.
fn bench() -> Bench {
    Bench::opened(settings(512, 4, 3, 10), &[0, 0, 0, 0, 0, 0, 1], 0)
}

fn loaded(pages: &[u32]) -> Bench {
    let mut bench = bench();
    for &page in pages {
        assert_eq!(bench.read(page, 0, 1).0, 0);
    }
    bench
}

#[test]
fn pages_take_the_lowest_empty_slot() {
    let bench = loaded(&[5, 2, 4]);
    assert_eq!(bench.state.slots.pages[..4], [5, 2, 4, EMPTY]);
    assert_eq!(bench.order(), [5, 2, 4]);
}

#[test]
fn a_hit_by_read_or_write_makes_most_recent() {
    let mut bench = loaded(&[0, 1, 2, 3]);
    assert_eq!(bench.read(1, 0, 1).0, 0);
    assert_eq!(bench.order(), [0, 2, 3, 1]);
    assert_eq!(bench.write(0, 0, &[1]), 0);
    assert_eq!(bench.order(), [2, 3, 1, 0]);
    assert_eq!(bench.read(0, 0, 1).0, 0);
    assert_eq!(bench.order(), [2, 3, 1, 0]);
}

#[test]
fn changed_and_owed_pages_are_passed_over() {
    let mut bench = loaded(&[0, 1, 2, 3]);
    assert_eq!(bench.write(0, 0, &[1]), 0);
    assert_eq!(bench.close(), 0);
    assert_eq!(bench.write(1, 0, &[1]), 0);
    for page in [2, 3] {
        assert_eq!(bench.read(page, 0, 1).0, 0);
    }
    // Page 0 is owed and page 1 changed; both were used longer ago than page 2.
    assert_eq!(bench.order(), [0, 1, 2, 3]);
    assert_eq!(bench.read(4, 0, 1).0, 0);
    assert_eq!(bench.state.slots.pages[..4], [0, 1, 4, 3]);
    assert_eq!(bench.order(), [0, 1, 3, 4]);
    assert_eq!(bench.state.meta.evictions, 1);
}

#[test]
fn not_a_use() {
    let mut bench = loaded(&[0, 1, 2, 3]);
    let order = bench.order().to_vec();
    assert_eq!(bench.write(0, 512, &[1]), 6);
    assert_eq!(bench.read(9, 0, 1).0, 4);
    assert_eq!(bench.read(6, 0, 1).0, 0);
    assert_eq!(bench.write(6, 0, &[1]), 0);
    assert_eq!(bench.grow(1), 0);
    assert_eq!(bench.close(), 0);
    assert_eq!(bench.order(), order);
    for page in 0..4 {
        assert_eq!(bench.write(page, 0, &[1]), 0);
    }
    assert_eq!(bench.write(4, 0, &[1]), 7);
    assert_eq!(bench.grow(0), 7);
    assert_eq!(bench.read(4, 0, 1).0, 0);
    assert_eq!(bench.close(), 0);
    assert_eq!(bench.order(), [0, 1, 2, 3]);
}

#[test]
fn a_load_copies_the_whole_page_and_a_full_write_loads_too() {
    let mut bench = bench();
    for (page, bytes) in bench.base.chunks_exact_mut(512).enumerate() {
        bytes.fill(page as u8 + 1);
    }
    let before = bench.clone();
    assert_eq!(bench.write(3, 4, &[77]), 0);
    let mut expected = [4; 512];
    expected[4] = 77;
    assert_eq!(bench.pages[..512], expected);
    assert!(
        bench.pages[512..] == before.pages[512..],
        "unused slots stay what was lent"
    );
    assert!(
        bench.base == before.base && bench.side == before.side && bench.ledger == before.ledger
    );
    assert_eq!(bench.write(2, 0, &[78; 512]), 0);
    assert_eq!(
        bench.state.meta,
        Counts {
            accesses: 2,
            hits: 0,
            misses: 2,
            evictions: 0,
            bypasses: 0
        }
    );
    assert_eq!(bench.state.slots.changed[..4], [1, 1, 0, 0]);
}

#[test]
fn a_write_of_equal_bytes_is_a_change() {
    let mut bench = Bench::example();
    assert_eq!(bench.write(1, 7, &[2]), 0);
    assert_eq!(bench.close(), 0);
    assert_eq!(bench.index(), [[1, 0, 1, 1]]);
}

#[test]
fn raw_pages_go_straight_to_the_base() {
    let mut bench = bench();
    let before = bench.clone();
    assert_eq!(bench.write(6, 510, &[1, 2]), 0);
    assert_eq!(bench.read(6, 509, 3), (0, vec![DIRT, 1, 2]));
    let mut expected = before;
    expected.base[6 * 512 + 510..7 * 512].copy_from_slice(&[1, 2]);
    expected.state.raw.bypasses = 2;
    bench.assert_same(&expected);
}

#[test]
fn grow_counts_nothing_but_an_eviction() {
    let mut bench = loaded(&[0, 1, 2, 3]);
    let meta = bench.state.meta;
    assert_eq!(bench.grow(0), 0);
    assert_eq!(
        bench.state.meta,
        Counts {
            evictions: 1,
            ..meta
        }
    );
    assert_eq!(
        (bench.state.slots.pages[0], bench.state.slots.changed[0]),
        (7, 1)
    );
    assert_eq!(bench.order(), [1, 2, 3, 7]);
    assert_eq!(bench.grow(1), 0);
    assert_eq!(
        (bench.state.meta.evictions, bench.state.raw),
        (1, Counts::default())
    );
    assert_eq!((bench.state.end, &bench.kinds[7..9]), (9, &[0, 1][..]));
}

#[test]
fn a_grown_page_is_zero_and_only_a_raw_one_is_zeroed_in_the_base() {
    let mut bench = bench();
    let before = bench.clone();
    assert_eq!(bench.grow(0), 0);
    assert!(bench.base == before.base, "the base was written");
    assert_eq!(bench.pages[..512], [0; 512]);
    assert_eq!(bench.read(7, 0, 512), (0, vec![0; 512]));
    assert_eq!(bench.grow(1), 0);
    assert_eq!(bench.base_page(8), [0; 512]);
    assert!(bench.base[..8 * 512] == before.base[..8 * 512]);
    // The metadata page reaches the base with the lag.
    for close in 1..=4 {
        assert_ne!(bench.base_page(7), [0; 512], "before close {close}");
        assert_eq!(bench.close(), 0);
    }
    assert_eq!(bench.base_page(7), [0; 512]);
}

#[test]
fn counts_stop_each_by_itself() {
    let most = 4_294_967_295;
    let full = Counts {
        accesses: most,
        hits: most,
        misses: most,
        evictions: most,
        bypasses: most,
    };
    let mut bench = loaded(&[0, 1, 2, 3]);
    bench.state.meta = full;
    bench.state.raw = full;
    assert_eq!(bench.read(0, 0, 1).0, 0);
    assert_eq!(bench.read(4, 0, 1).0, 0);
    assert_eq!(bench.read(6, 0, 1).0, 0);
    for page in [0, 2, 3, 4] {
        assert_eq!(bench.write(page, 0, &[1]), 0);
    }
    assert_eq!(bench.read(5, 0, 1).0, 0);
    assert_eq!((bench.state.meta, bench.state.raw), (full, full));
    bench.state.meta = Counts {
        hits: 5,
        bypasses: 6,
        ..full
    };
    assert_eq!(bench.read(0, 0, 1).0, 0);
    assert_eq!(bench.read(5, 0, 1).0, 0);
    assert_eq!(
        bench.state.meta,
        Counts {
            hits: 6,
            bypasses: 7,
            ..full
        }
    );
}

#[test]
fn the_order_behind_its_length_is_left_alone() {
    let mut bench = bench();
    bench.state.slots.order = [4_000_000_000; 16];
    assert_eq!(bench.read(3, 0, 1).0, 0);
    assert_eq!(bench.write(1, 0, &[1]), 0);
    assert_eq!(bench.read(3, 0, 1).0, 0);
    assert_eq!(bench.close(), 0);
    assert_eq!(bench.order(), [1, 3]);
    assert_eq!(bench.state.slots.order[2..], [4_000_000_000; 14]);
}

#[test]
fn any_non_zero_flag_is_a_change_and_calls_set_one() {
    let mut bench = loaded(&[0, 1]);
    bench.state.slots.changed[1] = 200;
    assert_eq!(bench.write(0, 0, &[1]), 0);
    assert_eq!(bench.state.slots.changed[..2], [1, 200]);
    assert_eq!(bench.write(1, 0, &[1]), 0);
    assert_eq!(bench.state.slots.changed[..2], [1, 1]);
    bench.state.slots.changed[1] = 128;
    assert_eq!(bench.close(), 0);
    assert_eq!(bench.index(), [[0, 0, 1, 1], [1, 1, 1, 1]]);
    assert_eq!(bench.state.slots.changed, [0; 16]);
}
