//! What a side file and a held buffer say of themselves.

use crate::support::*;
use plain::*;

/// After close 2: page 2 changed in tick 1, page 0 in tick 2.
fn recorded() -> Bench {
    let mut bench = Bench::example();
    assert_eq!(bench.write(2, 0, &[7]), 0);
    assert_eq!(bench.close(), 0);
    assert_eq!(bench.write(0, 0, &[8]), 0);
    assert_eq!(bench.close(), 0);
    bench
}

#[test]
fn header_and_entries_of_both() {
    let bench = recorded();
    let held = bench.take();
    let told = Told {
        number: 0,
        tick: 2,
        end: 4,
        entries: 2,
        settings: example_settings(65_535),
    };
    for front in [&bench.side[..], &held[..]] {
        assert_eq!(header_told(front), told);
        for (i, page, place, changed) in [(0, 0, 1, 2), (1, 2, 0, 1)] {
            let image = 512 + 512 * place as usize;
            let entry = EntryTold {
                found: 1,
                page,
                place,
                changed,
                sum: hashlittle(&bench.side[image..image + 512], 0),
            };
            assert_eq!(entry_told(front, i), entry);
        }
        assert_eq!(entry_told(front, 2), EntryTold::default());
        assert_eq!(entry_told(front, u32::MAX), EntryTold::default());
    }
}

#[test]
fn a_header_and_room_for_its_index_are_asked() {
    let bench = recorded();
    for length in 0..=bench.side.len() {
        let number = match length {
            0..36 => 11,
            36..164 => 12,
            _ => 0,
        };
        assert_eq!(header_told(&bench.side[..length]).number, number);
    }
    for at in 0..36 {
        let mut side = bench.side.clone();
        side[at] ^= 0x40;
        let refused = Told {
            number: if at < 6 { 11 } else { 12 },
            ..Told::default()
        };
        assert_eq!(header_told(&side), refused, "byte {at}");
        assert_eq!(entry_told(&side, 0), EntryTold::default(), "byte {at}");
    }
}

/// The index is told as it stands.
#[test]
fn a_wrong_index_is_told() {
    let mut bench = recorded();
    bench.side[36] = 9;
    let mut held = [0; 164];
    assert_eq!(take(&bench.side, &mut held), 12);
    assert_eq!(entry_told(&bench.side, 0).page, 9);
}
