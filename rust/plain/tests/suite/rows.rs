//! Rows c to j of document 01's table; a and b are in `example`, i also in `lookup3`.

use crate::support::*;
use plain::*;

#[test]
fn c_held_0_is_read_at_3_and_refused_at_4() {
    let mut bench = Bench::example();
    let mut held = bench.take();
    for _ in 1..=3 {
        assert_eq!(bench.close(), 0);
    }
    let found = bench.desk_read(&held, 2, 0, 512);
    assert_eq!(
        (found.number, found.source, found.offset, found.bytes),
        (0, 0, 1024, &[3; 512][..])
    );
    assert_eq!(bench.clone().refresh(&mut held.clone()).0, 0);
    assert_eq!(bench.close(), 0);
    let found = bench.desk_read(&held, 2, 0, 512);
    assert_eq!(
        (found.number, found.source, found.offset, found.bytes.len()),
        (13, 0, 0, 0)
    );
    assert_eq!(bench.refresh(&mut held).0, 13);
}

#[test]
fn d_held_4_at_closed_7_reads_place_0() {
    let mut bench = Bench::example();
    assert_eq!(bench.write(2, 0, &[71; 512]), 0);
    for _ in 1..=4 {
        assert_eq!(bench.close(), 0);
    }
    let held = bench.take();
    for _ in 5..=7 {
        assert_eq!(bench.close(), 0);
    }
    let found = bench.desk_read(&held, 2, 0, 512);
    assert_eq!(
        (found.number, found.source, found.offset, found.bytes),
        (0, 1, 512, &[71; 512][..])
    );
    // The part is of the very slice lent.
    assert_eq!(found.bytes.as_ptr(), bench.side[512..].as_ptr());
    assert_eq!(bench.close(), 0);
    assert_eq!(bench.desk_read(&held, 2, 0, 512).number, 13);
}

#[test]
fn e_four_reads_in_two_slots() {
    let mut bench = Bench::example();
    for page in [0, 1, 0, 2] {
        assert_eq!(bench.read(page, 0, 512), (0, vec![page as u8 + 1; 512]));
    }
    assert_eq!(
        bench.state.meta,
        Counts {
            accesses: 4,
            hits: 1,
            misses: 3,
            evictions: 1,
            bypasses: 0
        }
    );
    assert_eq!(bench.state.raw, Counts::default());
    assert_eq!(bench.state.slots.pages[..2], [0, 2]);
    assert_eq!(bench.order(), [0, 2]);
}

fn one_slot_with_page_0_changed() -> Bench {
    let mut bench = Bench::closed(settings(512, 1, 3, 4), &[0; 2]);
    bench.base[512..1024].fill(8);
    assert_eq!(bench.open(settings(512, 1, 3, 4), 2, 0), 0);
    assert_eq!(bench.write(0, 0, &[1]), 0);
    bench
}

#[test]
fn f_a_write_without_a_slot() {
    let mut bench = one_slot_with_page_0_changed();
    assert_eq!(bench.write(1, 0, &[1]), 7);
    // Still owed after the close, up to close 4, at which it is clean.
    for _ in 1..=3 {
        assert_eq!(bench.close(), 0);
        assert_eq!(bench.write(1, 0, &[1]), 7);
    }
    assert_eq!(bench.close(), 0);
    assert_eq!(bench.write(1, 0, &[1]), 0);
    assert_eq!(
        bench.state.meta,
        Counts {
            accesses: 2,
            hits: 0,
            misses: 2,
            evictions: 1,
            bypasses: 0
        }
    );
}

#[test]
fn g_a_read_without_a_slot() {
    let mut bench = one_slot_with_page_0_changed();
    let before = bench.clone();
    assert_eq!(bench.read(1, 3, 5), (0, vec![8; 5]));
    let mut expected = before;
    expected.state.meta.bypasses = 1;
    bench.assert_same(&expected);
}

#[test]
fn h_the_whole_page_and_one_byte_too_far() {
    let mut bench = Bench::opened(example_settings(4), &[0, 1], 0);
    for page in [0, 1] {
        assert_eq!(bench.read(page, 0, 512).0, 0);
        assert_eq!(bench.read(page, 1, 512).0, 6);
        assert_eq!(bench.write(page, 0, &[5; 512]), 0);
        assert_eq!(bench.write(page, 1, &[5; 512]), 6);
    }
    assert_eq!(bench.close(), 0);
    let held = bench.take();
    // Page 0 comes from the side file, page 1 from the base.
    for (page, source, start) in [(0, 1, 512), (1, 0, 512)] {
        let found = bench.desk_read(&held, page, 0, 512);
        assert_eq!(
            (found.number, found.source, found.offset, found.bytes),
            (0, source, start, &[5; 512][..])
        );
        let found = bench.desk_read(&held, page, 1, 512);
        assert_eq!(
            (found.number, found.source, found.offset, found.bytes.len()),
            (6, 0, 0, 0)
        );
        assert_eq!(found.bytes.as_ptr(), bench.base.as_ptr());
        let last = bench.desk_read(&held, page, 511, 1);
        assert_eq!(
            (last.number, last.offset, last.bytes),
            (0, start + 511, &[5][..])
        );
    }
}

#[test]
fn i_the_empty_checksum() {
    assert_eq!(hashlittle(&[], 0), 0xdead_beef);
    assert_eq!(number_at(&Bench::example().side, 28), 0xdead_beef);
}

#[test]
fn j_a_full_file_comes_before_full_slots() {
    let mut bench = Bench::opened(settings(512, 1, 3, 1), &[], 0);
    assert_eq!(bench.grow(0), 0);
    assert_eq!(bench.grow(0), 8);
    assert_eq!(bench.grow(1), 8);
    assert_eq!(bench.grow(2), 5);
    // With room in the file the same slots are the reason.
    let mut bench = Bench::opened(settings(512, 1, 3, 2), &[], 0);
    assert_eq!((bench.grow(0), bench.grow(0), bench.grow(1)), (0, 7, 0));
}
