//! The desk's calls beyond the rows: the clause that failed, marks, sources and judged lengths.

use crate::support::*;
use plain::*;

/// Page 2 stands in place 0 both times. Only the tick of the last change tells the runs apart.
#[test]
fn the_clause_that_failed() {
    let mut bench = Bench::example();
    assert_eq!(bench.write(2, 0, &[70; 512]), 0);
    assert_eq!(bench.close(), 0);
    let mut held = bench.take();
    let old = held[36..52].to_vec();
    assert_eq!(bench.open(example_settings(8), 4, 2), 0);
    assert_eq!(bench.write(2, 0, &[71; 512]), 0);
    assert_eq!(bench.close(), 0);
    let (number, marks) = bench.refresh(&mut held);
    assert_eq!(number, 0);
    assert_eq!(marks[..4], [0, 0, 1, 0]);
    assert_eq!(held[36..44], old[..8], "page and place are those of before");
    assert_ne!(held[44..48], old[8..12], "the last change is not");
    assert_eq!(bench.desk_read(&held, 2, 0, 512).bytes, [71; 512]);
}

#[test]
fn marks_follow_the_tick_held_before() {
    let mut bench = Bench::opened(settings(512, 4, 3, 9), &[0, 0, 0, 1, 0], 5);
    assert_eq!(bench.write(0, 0, &[1]), 0);
    assert_eq!(bench.close(), 0);
    let mut held = bench.take();
    assert_eq!(
        bench.refresh(&mut held),
        (0, vec![0, 0, 0, 0, 0, DIRT, DIRT, DIRT, DIRT])
    );
    assert_eq!(bench.write(1, 0, &[1]), 0);
    assert_eq!(bench.write(3, 0, &[1]), 0);
    assert_eq!(bench.grow(0), 0);
    assert_eq!(bench.close(), 0);
    let mut later = held.clone();
    assert_eq!(
        bench.refresh(&mut held),
        (0, vec![0, 1, 0, 0, 0, 1, DIRT, DIRT, DIRT])
    );
    assert_eq!(held, bench.take());
    assert_eq!(bench.write(0, 0, &[2]), 0);
    assert_eq!(bench.close(), 0);
    assert_eq!(
        bench.refresh(&mut held),
        (0, vec![1, 0, 0, 0, 0, 0, DIRT, DIRT, DIRT])
    );
    assert_eq!(
        bench.refresh(&mut later),
        (0, vec![1, 1, 0, 0, 0, 1, DIRT, DIRT, DIRT])
    );
    assert_eq!(held, later);
}

#[test]
fn a_smaller_end_is_no_refusal() {
    let mut bench = Bench::opened(example_settings(8), &[0; 6], 1);
    let mut held = bench.take();
    assert_eq!(bench.open(example_settings(8), 2, 2), 0);
    assert_eq!(
        bench.refresh(&mut held),
        (0, vec![0, 0, DIRT, DIRT, DIRT, DIRT, DIRT, DIRT])
    );
    assert_eq!(bench.desk_read(&held, 2, 0, 1).number, 4);
}

#[test]
fn lengths_are_those_of_the_held_settings() {
    let mut bench = Bench::example();
    assert_eq!(bench.write(2, 0, &[70; 512]), 0);
    assert_eq!(bench.close(), 0);
    let held = bench.take();
    let exact = held_length(example_settings(8));
    assert_eq!(held[exact..], [DIRT; SPARE], "take writes no further");
    let base = &bench.base[..4 * 512];
    assert_eq!(
        desk_read(&bench.side, base, &held[..exact], 2, 0, 1).number,
        0
    );
    assert_eq!(
        desk_read(&bench.side, base, &held[..exact - 1], 2, 0, 1).number,
        3
    );
    // The base is judged also where the page comes from the side file.
    assert_eq!(
        desk_read(&bench.side, &base[..4 * 512 - 1], &held, 2, 0, 1).number,
        2
    );
    let side = &bench.side[..side_length(example_settings(8))];
    assert_eq!(desk_read(side, base, &held, 2, 0, 1).number, 0);
    assert_eq!(
        desk_read(&side[..side.len() - 1], base, &held, 2, 0, 1).number,
        12
    );
    let mut marks = [9; 4];
    assert_eq!(refresh(side, &mut held.clone()[..exact], &mut marks), 0);
    assert_eq!(marks, [0; 4]);
    assert_eq!(refresh(side, &mut held.clone(), &mut marks[..3]), 2);
}

#[test]
fn a_read_looks_at_the_held_index_not_the_new_one() {
    let mut bench = Bench::example();
    assert_eq!(bench.write(2, 0, &[70; 512]), 0);
    assert_eq!(bench.close(), 0);
    let held = bench.take();
    assert_eq!(bench.write(2, 0, &[71; 512]), 0);
    assert_eq!(bench.write(1, 0, &[72; 512]), 0);
    assert_eq!(bench.close(), 0);
    // The new index is not even judged.
    bench.side[36..164].fill(0xff);
    let found = bench.desk_read(&held, 2, 100, 4);
    assert_eq!(
        (found.number, found.source, found.offset, found.bytes),
        (0, 1, 612, &[70; 4][..])
    );
    let found = bench.desk_read(&held, 1, 100, 4);
    assert_eq!(
        (found.number, found.source, found.offset, found.bytes),
        (0, 0, 612, &[2; 4][..])
    );
    assert_eq!(found.bytes.as_ptr(), bench.base[612..].as_ptr());
}

#[test]
fn a_damaged_image_is_refused_whatever_the_span() {
    let mut bench = Bench::example();
    assert_eq!(bench.write(2, 0, &[70; 512]), 0);
    assert_eq!(bench.close(), 0);
    let held = bench.take();
    for at in [0, 1, 255, 511] {
        bench.side[512 + at] ^= 0x10;
        for (offset, length) in [(0, 1), (511, 1), (200, 30), (0, 512)] {
            let found = bench.desk_read(&held, 2, offset, length);
            assert_eq!(
                (found.number, found.source, found.offset, found.bytes.len()),
                (14, 0, 0, 0)
            );
        }
        assert_eq!(bench.desk_read(&held, 1, 0, 512).number, 0);
        bench.side[512 + at] ^= 0x10;
    }
    assert_eq!(bench.desk_read(&held, 2, 0, 512).number, 0);
}

#[test]
fn the_gap_before_the_images_is_looked_at_by_nobody() {
    let mut bench = Bench::example();
    assert_eq!(bench.write(2, 0, &[70; 512]), 0);
    assert_eq!(bench.close(), 0);
    bench.side[164..512].fill(0x33);
    let mut held = bench.take();
    assert_eq!(bench.refresh(&mut held).0, 0);
    assert_eq!(bench.desk_read(&held, 2, 0, 512).number, 0);
}

#[test]
fn an_empty_file_is_read_by_nobody() {
    let bench = Bench::opened(example_settings(8), &[], 0);
    let held = bench.take();
    let found = desk_read(&bench.side, &[], &held, 0, 0, 1);
    assert_eq!((found.number, found.bytes.len()), (4, 0));
}
