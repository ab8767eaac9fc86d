//! What the desk's part of the boundary answers beside the calls that rust/replay compares: a read in one call, and what a
//! header and its index say.

use proved::{EntryTold, Settings, State, Told};

const SETTINGS: Settings = Settings {
    size: 512,
    slots: 2,
    lag: 3,
    capacity: 4,
};

struct Files {
    base: Vec<u8>,
    side: Vec<u8>,
    held: Vec<u8>,
}

/// Four metadata pages, of which page 2 changed in tick 8 and page 3 in tick 9; taken at tick 9.
fn files() -> Files {
    let mut ledger = vec![0; proved::ledger_length(SETTINGS)];
    let mut base = vec![7; proved::base_length(SETTINGS)];
    let mut side = vec![0; proved::side_length(SETTINGS)];
    let mut buffer = vec![0; proved::buffer_length(SETTINGS)];
    let kinds = vec![0; 4];
    let opened = proved::open(
        SETTINGS,
        4,
        7,
        &mut ledger,
        &base,
        &mut side,
        &buffer,
        &kinds,
    );
    assert_eq!(opened.number, 0);
    let mut state: State = opened.state;
    for page in [2, 3] {
        let written = proved::write(
            state,
            &ledger,
            &mut base,
            &side,
            &mut buffer,
            &kinds,
            page,
            0,
            b"pull",
        );
        assert_eq!(written.number, 0);
        let closed = proved::close(
            written.state,
            &mut ledger,
            &mut base,
            &mut side,
            &buffer,
            &kinds,
        );
        assert_eq!(closed.number, 0);
        state = closed.state;
    }
    let mut held = vec![0; proved::held_length(SETTINGS)];
    assert_eq!(proved::take(&side, &mut held), 0);
    Files { base, side, held }
}

#[test]
fn a_read_in_one_call_is_the_three_companions() {
    let f = files();
    let mut accepted = 0;
    for page in [0, 2, 3, 4, u32::MAX] {
        for offset in [0, 1, 511, 512, u32::MAX] {
            for length in [0, 1, 511, 512, u32::MAX] {
                let three = proved::desk_read(&f.side, &f.base, &f.held, page, offset, length);
                let part = proved::read_part(&f.side, &f.base, &f.held, page, offset, length);
                assert_eq!(part, three, "{page} {offset} {length}");
                accepted += u32::from(part.number == 0);
            }
        }
    }
    assert_eq!(accepted, 3 * 6);
}

#[test]
fn header_and_entries_are_told() {
    let f = files();
    let told = Told {
        number: 0,
        tick: 9,
        end: 4,
        entries: 2,
        settings: Settings {
            capacity: 65_535,
            ..SETTINGS
        },
    };
    for front in [&f.side, &f.held] {
        assert_eq!(proved::header_of(front), told);
        for (i, page, place, changed) in [(0, 2, 0, 8), (1, 3, 1, 9)] {
            let image = 512 + 512 * place as usize;
            let entry = EntryTold {
                found: 1,
                page,
                place,
                changed,
                sum: proved::hashlittle(&f.side[image..image + 512], 0),
            };
            assert_eq!(proved::entry_of(front, i), entry);
        }
        assert_eq!(proved::entry_of(front, 2), EntryTold::default());
    }
}

#[test]
fn a_refused_header_tells_nothing() {
    let mut front = files().held;
    let refused = |number| Told {
        number,
        ..Told::default()
    };
    for n in 0..front.len() {
        let number = if n < 36 { 11 } else { 12 };
        assert_eq!(proved::header_of(&front[..n]), refused(number), "{n}");
        assert_eq!(proved::entry_of(&front[..n], 0), EntryTold::default());
    }
    front[12] ^= 1;
    assert_eq!(proved::header_of(&front), refused(12));
    assert_eq!(proved::entry_of(&front, 0), EntryTold::default());
}
