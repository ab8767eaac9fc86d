//! What the recorder's part of the boundary answers from numbers alone: the lengths, beside the plain version's, and the
//! accessors. The five calls are compared by rust/replay.

use proved::{Counts, Settings, Slots, State};

const SIZES: [u32; 7] = [0, 511, 512, 1024, 2048, 4096, 8192];
const CAPACITIES: [u32; 5] = [0, 1, 65_535, 65_536, u32::MAX];

/// All lengths, in the order of the slices.
fn lengths(s: Settings) -> [usize; 5] {
    [
        proved::ledger_length(s),
        proved::base_length(s),
        proved::side_length(s),
        proved::buffer_length(s),
        proved::held_length(s),
    ]
}

fn within_limits(s: Settings) -> bool {
    matches!(s.size, 512 | 1024 | 2048 | 4096)
        && (1..=16).contains(&s.slots)
        && (3..=8).contains(&s.lag)
        && (1..=65_535).contains(&s.capacity)
}

fn plain_lengths(s: Settings) -> [usize; 5] {
    if !within_limits(s) {
        return [0; 5];
    }
    let settings = plain::Settings {
        page_size: s.size,
        slots: s.slots,
        lag: s.lag,
        capacity: s.capacity,
    };
    let page = s.size as usize;
    [
        plain::ledger_length(settings),
        s.capacity as usize * page,
        plain::side_length(settings),
        s.slots as usize * page,
        plain::held_length(settings),
    ]
}

#[test]
fn lengths_at_all_settings_and_past_their_limits() {
    for size in SIZES {
        for slots in (0..=17).chain([u32::MAX]) {
            for lag in (2..=9).chain([u32::MAX]) {
                for capacity in CAPACITIES {
                    let s = Settings {
                        size,
                        slots,
                        lag,
                        capacity,
                    };
                    assert_eq!(lengths(s), plain_lengths(s), "{s:?}");
                }
            }
        }
    }
}

#[test]
fn lengths_by_hand() {
    let s = Settings {
        size: 512,
        slots: 2,
        lag: 3,
        capacity: 4,
    };
    assert_eq!(lengths(s), [272, 2048, 7680, 1024, 164]);
}

#[test]
fn the_accessors_tell_each_field() {
    let counts = |first| Counts {
        accesses: first,
        hits: first + 1,
        misses: first + 2,
        evictions: first + 3,
        bypasses: first + 4,
    };
    let state = State {
        settings: Settings {
            size: 1,
            slots: 2,
            lag: 3,
            capacity: 4,
        },
        end: 5,
        closed: 6,
        entries: 7,
        slots: Slots {
            pages: [8; 16],
            changed: [9; 16],
            order: [10; 16],
            used: 11,
        },
        meta: counts(20),
        raw: counts(30),
    };
    assert_eq!(proved::settings_of(state), state.settings);
    assert_eq!(proved::end(state), 5);
    assert_eq!(proved::closed_tick(state), 6);
    assert_eq!(proved::entries(state), 7);
    assert_eq!(proved::metadata_counts(state), state.meta);
    assert_eq!(proved::raw_counts(state), state.raw);
}
