//! Every refusal of the recorder's calls, alone and together with every choice of the others: the
//! first in the order of tests is answered. The bench checks that nothing changes.

use crate::support::*;
use plain::*;

#[derive(Clone)]
struct Case {
    bench: Bench,
    page: u32,
    offset: u32,
    length: usize,
    kind: u32,
}

/// A refusal number and a change that is a reason for it.
type Fault = (u32, fn(&mut Case));

/// Tries every choice of faults. They stand in the order of tests, so the first one chosen is
/// answered.
fn try_every_choice(good: &Case, faults: &[Fault], call: fn(&mut Case) -> u32) {
    for choice in 0..1_u32 << faults.len() {
        let mut case = good.clone();
        let mut expected = 0;
        for (_, (number, fault)) in faults
            .iter()
            .enumerate()
            .filter(|(i, _)| choice >> i & 1 == 1)
        {
            fault(&mut case);
            expected = if expected == 0 { *number } else { expected };
        }
        assert_eq!(call(&mut case), expected, "choice {choice:b}");
    }
}

const BROKEN_STATE: Fault = (3, |case| case.bench.state.slots.changed[15] = 1);
const RAW_PAGE_IN_SLOT: Fault = (3, |case| case.bench.kinds[0] = 1);
const SHORT: [Fault; 4] = [
    (2, |case| case.bench.base.truncate(10 * 512 - 1)),
    (2, |case| {
        case.bench
            .side
            .truncate(side_length(case.bench.state.settings) - 1)
    }),
    (2, |case| case.bench.pages.truncate(2 * 512 - 1)),
    (2, |case| case.bench.kinds.truncate(9)),
];
const FULL_SLOTS: Fault = (7, |case| {
    case.bench.state.slots.pages[..2].copy_from_slice(&[0, 1]);
    case.bench.state.slots.order[..2].copy_from_slice(&[1, 0]);
    case.bench.state.slots.changed[..2].fill(1);
    case.bench.state.slots.used = 2;
});

/// P = 512, S = 2, L = 3, E = 10, five pages, page 0 in a slot; the named page 3 is metadata.
fn good() -> Case {
    let mut bench = Bench::opened(settings(512, 2, 3, 10), &[0, 0, 0, 0, 1], 20);
    assert_eq!(bench.read(0, 0, 1).0, 0);
    Case {
        bench,
        page: 3,
        offset: 0,
        length: 4,
        kind: 0,
    }
}

const WRONG_PAGE: [Fault; 2] = [
    (4, |case| case.page = 5),
    (4, |case| case.page = 4_294_967_295),
];
const WRONG_KIND: [Fault; 2] = [
    (5, |case| case.bench.kinds[3] = 2),
    (5, |case| case.bench.kinds[3] = 255),
];
const WRONG_SPAN: [Fault; 4] = [
    (6, |case| case.length = 0),
    (6, |case| case.offset = 509),
    (6, |case| case.offset = 4_294_967_295),
    (6, |case| (case.offset, case.length) = (512, 1)),
];

#[test]
fn read() {
    let call = |case: &mut Case| case.bench.read(case.page, case.offset, case.length).0;
    for short in SHORT {
        for page in WRONG_PAGE {
            for kind in WRONG_KIND {
                for span in WRONG_SPAN {
                    try_every_choice(
                        &good(),
                        &[BROKEN_STATE, short, RAW_PAGE_IN_SLOT, page, kind, span],
                        call,
                    );
                }
            }
        }
    }
}

#[test]
fn write() {
    let call = |case: &mut Case| {
        case.bench
            .write(case.page, case.offset, &vec![1; case.length])
    };
    for short in SHORT {
        for page in WRONG_PAGE {
            for kind in WRONG_KIND {
                for span in WRONG_SPAN {
                    let faults = [
                        BROKEN_STATE,
                        short,
                        RAW_PAGE_IN_SLOT,
                        page,
                        kind,
                        span,
                        FULL_SLOTS,
                    ];
                    try_every_choice(&good(), &faults, call);
                }
            }
        }
    }
}

#[test]
fn read_and_write_of_a_raw_page() {
    let mut raw = good();
    raw.page = 4;
    let faults = |span| {
        [
            BROKEN_STATE,
            SHORT[0],
            RAW_PAGE_IN_SLOT,
            WRONG_PAGE[0],
            span,
        ]
    };
    for span in WRONG_SPAN {
        try_every_choice(&raw, &faults(span), |case| {
            case.bench.read(case.page, case.offset, case.length).0
        });
        try_every_choice(&raw, &faults(span), |case| {
            case.bench
                .write(case.page, case.offset, &vec![1; case.length])
        });
    }
    // Full slots are no reason there.
    FULL_SLOTS.1(&mut raw);
    assert_eq!(raw.bench.write(4, 0, &[1]), 0);
}

#[test]
fn grow() {
    const KINDS: [Fault; 3] = [
        (5, |case| case.kind = 2),
        (5, |case| case.kind = 256),
        (5, |case| case.kind = 4_294_967_295),
    ];
    const FULL_FILE: Fault = (8, |case| case.bench.state.end = 10);
    let call = |case: &mut Case| case.bench.grow(case.kind);
    for short in SHORT {
        for kind in KINDS {
            let faults = [
                BROKEN_STATE,
                short,
                RAW_PAGE_IN_SLOT,
                kind,
                FULL_FILE,
                FULL_SLOTS,
            ];
            try_every_choice(&good(), &faults, call);
            let mut raw = good();
            raw.kind = 1;
            try_every_choice(&raw, &faults[..5], call);
        }
    }
}

#[test]
fn close() {
    const LAST_TICK: Fault = (9, |case| case.bench.state.closed = 4_294_967_295);
    const NO_PLACE: Fault = (10, |case| {
        let closed = case.bench.state.closed;
        for place in 0..14 {
            case.bench.set_place_row(place, [1, closed]);
        }
    });
    const NO_ROOM: Fault = (10, |case| {
        case.bench.state.end = 10;
        case.bench.kinds[1..9].fill(0);
        case.bench.state.entries = 8;
        for row in 0..8 {
            case.bench
                .set_entry_row(row as usize, [row + 1, row, 10, 0, 10]);
        }
    });
    let mut changed = good();
    assert_eq!(changed.bench.write(0, 0, &[1]), 0);
    let call = |case: &mut Case| case.bench.close();
    for short in SHORT {
        for room in [NO_PLACE, NO_ROOM] {
            try_every_choice(
                &changed,
                &[BROKEN_STATE, short, RAW_PAGE_IN_SLOT, LAST_TICK, room],
                call,
            );
        }
    }
}

#[test]
fn close_needs_a_place_for_each_changed_page() {
    let mut bench = good().bench;
    for page in [0, 1] {
        assert_eq!(bench.write(page, 0, &[1]), 0);
    }
    for place in 0..13 {
        bench.set_place_row(place, [1, 19]);
    }
    assert_eq!(bench.clone().close(), 10);
    // The one retired longer ago is reusable: 18 + 3 is 21.
    bench.set_place_row(5, [1, 18]);
    assert_eq!(bench.close(), 0);
    assert_eq!(bench.index(), [[0, 5, 21, 21], [1, 13, 21, 21]]);
    // With nothing changed no place is needed.
    let mut bench = good().bench;
    for place in 0..14 {
        bench.set_place_row(place, [1, 20]);
    }
    assert_eq!(bench.close(), 0);
}

/// What open is given, with a bench that holds the example's recorder in progress.
#[derive(Clone)]
struct Opening {
    bench: Bench,
    settings: Settings,
    end: u32,
}

#[test]
fn open() {
    type Fault = (u32, fn(&mut Opening));
    const LIMITS: [Fault; 15] = [
        (1, |case| case.settings.page_size = 0),
        (1, |case| case.settings.page_size = 511),
        (1, |case| case.settings.page_size = 256),
        (1, |case| case.settings.page_size = 8192),
        (1, |case| case.settings.page_size = 4_294_967_295),
        (1, |case| case.settings.slots = 0),
        (1, |case| case.settings.slots = 17),
        (1, |case| case.settings.lag = 2),
        (1, |case| case.settings.lag = 9),
        (1, |case| case.settings.lag = 4_294_967_295),
        (1, |case| (case.settings.capacity, case.end) = (0, 0)),
        (1, |case| case.settings.capacity = 65_536),
        (1, |case| case.settings.capacity = 4_294_967_295),
        (1, |case| case.end = 9),
        (1, |case| case.end = 4_294_967_295),
    ];
    const SHORT: [Fault; 5] = [
        (2, |case| case.bench.ledger.truncate(8 * 20 + 14 * 8 - 1)),
        (2, |case| case.bench.base.truncate(8 * 512 - 1)),
        (2, |case| case.bench.side.truncate(15 * 512 - 1)),
        (2, |case| case.bench.pages.truncate(2 * 512 - 1)),
        (2, |case| case.bench.kinds.truncate(7)),
    ];
    const KIND: [Fault; 2] = [
        (5, |case| case.bench.kinds[0] = 2),
        (5, |case| case.bench.kinds[3] = 255),
    ];
    let good = Opening {
        bench: Bench::example(),
        settings: example_settings(8),
        end: 4,
    };
    for limit in LIMITS {
        for short in SHORT {
            for kind in KIND {
                let faults = [limit, short, kind];
                for choice in 0..8_usize {
                    let mut case = good.clone();
                    let chosen: Vec<Fault> = (0..3)
                        .filter(|i| choice >> i & 1 == 1)
                        .map(|i| faults[i])
                        .collect();
                    chosen.iter().for_each(|(_, fault)| fault(&mut case));
                    let expected = chosen.first().map_or(0, |(number, _)| *number);
                    assert_eq!(case.bench.open(case.settings, case.end, 7), expected);
                }
            }
        }
    }
}

#[test]
fn open_takes_any_limit_and_tick() {
    for page_size in Settings::PAGE_SIZES {
        for (slots, lag, capacity) in [(1, 3, 1), (16, 8, 1), (1, 8, 7), (16, 3, 7)] {
            for tick in [0, 1, 4_294_967_295] {
                let mut bench = Bench::closed(settings(page_size, slots, lag, capacity), &[1]);
                assert_eq!(
                    bench.open(settings(page_size, slots, lag, capacity), 1, tick),
                    0
                );
                assert_eq!(bench.close(), if tick == 4_294_967_295 { 9 } else { 0 });
            }
        }
    }
}

#[test]
fn open_judges_kinds_below_the_end_only() {
    let mut bench = Bench::closed(example_settings(8), &[0, 1, 0, 1, 2]);
    assert_eq!(bench.open(example_settings(8), 5, 0), 5);
    assert_eq!(bench.open(example_settings(8), 4, 0), 0);
}

#[test]
fn a_refused_open_answers_a_state_no_call_accepts() {
    let mut bench = Bench::example();
    bench.state = State::default();
    assert_eq!(
        (
            bench.read(0, 0, 1).0,
            bench.write(0, 0, &[1]),
            bench.grow(0),
            bench.close()
        ),
        (3, 3, 3, 3)
    );
}

#[test]
fn the_largest_file() {
    let s = settings(512, 1, 3, 65_535);
    let mut bench = Bench::opened(s, &vec![1; 65_534], 0);
    assert_eq!(bench.grow(0), 0);
    assert_eq!(bench.grow(0), 8);
    assert_eq!(bench.write(65_534, 511, &[9]), 0);
    assert_eq!(bench.close(), 0);
    let held = bench.take();
    assert_eq!(bench.desk_read(&held, 65_534, 511, 1).bytes, [9]);
    assert_eq!(bench.desk_read(&held, 65_535, 511, 1).number, 4);
}
