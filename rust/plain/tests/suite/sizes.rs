//! The sizes that follow from the settings.

use crate::support::settings;
use plain::*;

#[test]
fn smallest_example_and_largest() {
    let smallest = settings(512, 1, 3, 1);
    assert_eq!((index_entries(smallest), image_places(smallest)), (4, 7));
    assert_eq!(
        (held_length(smallest), ledger_length(smallest)),
        (36 + 64, 80 + 56)
    );
    assert_eq!(side_length(smallest), 512 + 7 * 512);

    let example = settings(512, 2, 3, 8);
    assert_eq!((index_entries(example), image_places(example)), (8, 14));
    assert_eq!(side_length(example), 512 + 14 * 512);

    let largest = settings(4096, 16, 8, 65_535);
    assert_eq!((index_entries(largest), image_places(largest)), (144, 272));
    assert_eq!(
        (held_length(largest), ledger_length(largest)),
        (36 + 2304, 2880 + 2176)
    );
    assert_eq!(side_length(largest), 4096 + 272 * 4096);
}

#[test]
fn images_begin_at_whole_pages() {
    // 36 + 16 * 144 = 2340 needs five pages of 512.
    assert_eq!(side_length(settings(512, 16, 8, 1)), 5 * 512 + 272 * 512);
    // No settings end their index on a page's end: 36 is no multiple of 16.
    assert_eq!(side_length(settings(1024, 16, 3, 1)), 2 * 1024 + 112 * 1024);
}

#[test]
fn any_numbers_are_answered() {
    let extremes = [0, 1, 2, 4_294_967_295];
    for p in extremes {
        for s in extremes {
            for l in extremes {
                let s = settings(p, s, l, 4_294_967_295);
                let sizes = [
                    index_entries(s),
                    image_places(s),
                    held_length(s),
                    side_length(s),
                    ledger_length(s),
                ];
                assert!(sizes[0] <= sizes[2] && sizes[2] <= sizes[3]);
            }
        }
    }
}
