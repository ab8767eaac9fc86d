//! Every refusal of the desk's calls: each reason by itself, and every choice of reasons together,
//! of which the first in the order of tests is answered. Refusals change no byte.

use crate::support::*;
use plain::*;

/// P = 512, S = 2, L = 3, six pages, of which 1 and 4 have entries; closed tick 22.
fn bench() -> Bench {
    let mut bench = Bench::opened(example_settings(8), &[0, 0, 0, 0, 0, 1], 20);
    assert_eq!(bench.write(1, 0, &[70; 512]), 0);
    assert_eq!(bench.close(), 0);
    assert_eq!(bench.write(4, 0, &[71; 512]), 0);
    assert_eq!(bench.close(), 0);
    bench
}

#[derive(Clone)]
struct Case {
    side: Vec<u8>,
    base: Vec<u8>,
    held: Vec<u8>,
    marks: Vec<u8>,
    page: u32,
    offset: u32,
    length: u32,
}

fn good() -> Case {
    let bench = bench();
    let held = bench.take();
    Case {
        side: bench.side,
        base: bench.base,
        held,
        marks: vec![DIRT; 6],
        page: 4,
        offset: 0,
        length: 512,
    }
}

fn call_take(case: &mut Case) -> u32 {
    let before = case.held.clone();
    let number = take(&case.side, &mut case.held);
    assert!(number == 0 || case.held == before, "a refused take wrote");
    number
}

fn call_refresh(case: &mut Case) -> u32 {
    let before = case.clone();
    let number = refresh(&case.side, &mut case.held, &mut case.marks);
    assert!(
        number == 0 || (case.held == before.held && case.marks == before.marks),
        "a refused refresh wrote"
    );
    number
}

fn call_read(case: &mut Case) -> u32 {
    let found = desk_read(
        &case.side,
        &case.base,
        &case.held,
        case.page,
        case.offset,
        case.length,
    );
    if found.number != 0 {
        assert_eq!((found.source, found.offset, found.bytes.len()), (0, 0, 0));
        assert_eq!(found.bytes.as_ptr(), case.base.as_ptr());
    }
    found.number
}

/// A change of header, index or length that is damage; true where only the index is damaged.
type Damage = (bool, fn(&mut Vec<u8>));

fn set(bytes: &mut [u8], at: usize, number: u32) {
    put_number(bytes, at, number);
    mend(bytes);
}

fn set_byte(bytes: &mut [u8], at: usize, byte: u8) {
    bytes[at] = byte;
    mend(bytes);
}

/// Reasons for 11: mark, byte 3, version. Checksums are right, so nothing else is wrong.
const FORM: [fn(&mut Vec<u8>); 7] = [
    |bytes| set_byte(bytes, 0, b'X'),
    |bytes| set_byte(bytes, 1, b'w'),
    |bytes| set_byte(bytes, 2, 0),
    |bytes| set_byte(bytes, 3, 1),
    |bytes| set_byte(bytes, 4, 0),
    |bytes| set_byte(bytes, 4, 2),
    |bytes| set_byte(bytes, 5, 1),
];

/// Reasons for 12 but the length. Entries are (page 1, place 0, tick 21) and (page 4, place 1, tick
/// 22).
const DAMAGE: [Damage; 27] = [
    (false, |bytes| bytes[32] ^= 1),
    (false, |bytes| bytes[35] ^= 0x80),
    (false, |bytes| bytes[13] ^= 1),
    // Settings: L, P, S.
    (false, |bytes| set_byte(bytes, 6, 2)),
    (false, |bytes| set_byte(bytes, 6, 9)),
    (false, |bytes| set_byte(bytes, 7, 1)),
    (false, |bytes| set(bytes, 8, 0)),
    (false, |bytes| set(bytes, 8, 256)),
    (false, |bytes| set(bytes, 8, 513)),
    (false, |bytes| set(bytes, 8, 8192)),
    (false, |bytes| set_byte(bytes, 24, 0)),
    (false, |bytes| set_byte(bytes, 24, 17)),
    (false, |bytes| set_byte(bytes, 25, 1)),
    // Bytes 26 and 27, e, n.
    (false, |bytes| set_byte(bytes, 26, 1)),
    (false, |bytes| set_byte(bytes, 27, 1)),
    (false, |bytes| set(bytes, 16, 65_536)),
    (false, |bytes| set(bytes, 20, 9)),
    // Entries: equal and falling pages, a page at e, places at M and twice, a change after the
    // closed tick.
    (true, |bytes| set(bytes, 52, 1)),
    (true, |bytes| set(bytes, 52, 0)),
    (true, |bytes| set(bytes, 52, 6)),
    (true, |bytes| set(bytes, 56, 14)),
    (true, |bytes| set(bytes, 56, 4_294_967_295)),
    (true, |bytes| set(bytes, 56, 0)),
    (true, |bytes| set(bytes, 60, 23)),
    // A spare entry, the last byte of the index, and the index checksum alone.
    (true, |bytes| bytes[36 + 32] = 1),
    (true, |bytes| bytes[36 + 127] = 1),
    (true, |bytes| bytes[36 + 12] ^= 1),
];

#[test]
fn nothing_is_refused_without_a_reason() {
    let mut case = good();
    assert_eq!(
        (
            call_take(&mut case),
            call_refresh(&mut case),
            call_read(&mut case)
        ),
        (0, 0, 0)
    );
    mend(&mut case.side);
    assert_eq!(case.side, good().side);
}

#[test]
fn form_of_the_side_file() {
    for form in FORM {
        let mut case = good();
        form(&mut case.side);
        assert_eq!(
            (
                call_take(&mut case),
                call_refresh(&mut case),
                call_read(&mut case)
            ),
            (11, 11, 11)
        );
    }
    for length in [0, 1, 4, 35] {
        let mut case = good();
        case.side.truncate(length);
        assert_eq!(
            (
                call_take(&mut case),
                call_refresh(&mut case),
                call_read(&mut case)
            ),
            (11, 11, 11)
        );
    }
}

#[test]
fn damage_to_the_side_file() {
    for (i, (of_index, damage)) in DAMAGE.into_iter().enumerate() {
        let mut case = good();
        damage(&mut case.side);
        let read = if of_index { 0 } else { 12 };
        assert_eq!(
            (
                call_take(&mut case),
                call_refresh(&mut case),
                call_read(&mut case)
            ),
            (12, 12, read),
            "damage {i}"
        );
    }
    let needed = side_length(example_settings(8));
    for length in [36, 163, 164, 512, needed - 1] {
        let mut case = good();
        case.side.truncate(length);
        assert_eq!(
            (
                call_take(&mut case),
                call_refresh(&mut case),
                call_read(&mut case)
            ),
            (12, 12, 12)
        );
    }
    let mut case = good();
    case.side.truncate(needed);
    assert_eq!(
        (
            call_take(&mut case),
            call_refresh(&mut case),
            call_read(&mut case)
        ),
        (0, 0, 0)
    );
}

#[test]
fn limits_of_header_numbers_are_accepted() {
    let mut case = good();
    set(&mut case.side, 16, 65_535);
    assert_eq!((call_take(&mut case), call_read(&mut case)), (0, 2));
    let mut case = good();
    set(&mut case.side, 56, 13);
    set(&mut case.side, 60, 22);
    assert_eq!(call_take(&mut case), 0);
}

#[test]
fn damage_to_the_held_buffer() {
    for damage in FORM
        .into_iter()
        .chain(DAMAGE.into_iter().map(|(_, damage)| damage))
    {
        let mut case = good();
        damage(&mut case.held);
        assert_eq!((call_refresh(&mut case), call_read(&mut case)), (3, 3));
        assert_eq!(
            call_take(&mut case),
            0,
            "take does not look at what is held"
        );
    }
    for length in [0, 35, 36, 163] {
        let mut case = good();
        case.held.truncate(length);
        assert_eq!(
            (
                call_refresh(&mut case),
                call_read(&mut case),
                call_take(&mut case)
            ),
            (3, 3, 2)
        );
    }
    let mut case = good();
    case.held.truncate(164);
    assert_eq!(
        (
            call_refresh(&mut case),
            call_read(&mut case),
            call_take(&mut case)
        ),
        (0, 0, 0)
    );
}

#[test]
fn settings_other_than_the_held_ones() {
    // Each differs in one setting only and is a sound file of the same tick by itself.
    for (page_size, slots, lag) in [(1024, 2, 3), (512, 3, 3), (512, 1, 3), (512, 2, 4)] {
        let other = Bench::opened(settings(page_size, slots, lag, 8), &[0; 6], 22);
        let mut case = good();
        case.side = other.side.clone();
        assert_eq!((call_refresh(&mut case), call_read(&mut case)), (12, 12));
        // 12 comes before 13.
        put_number(&mut case.side, 12, 99);
        mend(&mut case.side);
        assert_eq!((call_refresh(&mut case), call_read(&mut case)), (12, 12));
    }
    // The capacity is no setting of the side file.
    let other = Bench::opened(settings(512, 2, 3, 60), &[0; 6], 22);
    let mut case = good();
    case.side = other.side.clone();
    assert_eq!(call_refresh(&mut case), 0);
}

#[test]
fn ticks_within_the_lag() {
    for (held_tick, expected) in [
        (18, 13),
        (19, 0),
        (20, 0),
        (22, 0),
        (23, 13),
        (0, 13),
        (4_294_967_295, 13),
    ] {
        let mut case = good();
        case.held = Bench::opened(example_settings(8), &[0; 6], held_tick).take();
        assert_eq!(
            (call_read(&mut case), call_refresh(&mut case)),
            (expected, expected),
            "held {held_tick}"
        );
    }
}

#[test]
fn pages_and_spans() {
    for (page, expected) in [(0, 0), (5, 0), (6, 4), (7, 4), (4_294_967_295, 4)] {
        let mut case = good();
        case.page = page;
        assert_eq!(call_read(&mut case), expected);
    }
    let spans = [
        (0, 0),
        (0, 513),
        (1, 512),
        (511, 2),
        (512, 0),
        (512, 1),
        (4_294_967_295, 1),
    ];
    for (offset, length) in spans
        .into_iter()
        .chain([(1, 4_294_967_295), (4_294_967_295, 4_294_967_295)])
    {
        for page in [0, 4] {
            let mut case = good();
            (case.page, case.offset, case.length) = (page, offset, length);
            assert_eq!(call_read(&mut case), 6);
        }
    }
}

/// A refusal number and a change that is a reason for it. Where one mends checksums it leaves the
/// others' reasons.
type Fault = (u32, fn(&mut Case));

const HELD: Fault = (3, |case| set_byte(&mut case.held, 26, 1));
const MARK: Fault = (11, |case| case.side[0] = 0);
const ZEROS: Fault = (12, |case| set_byte(&mut case.side, 27, 1));
const AHEAD: Fault = (13, |case| set(&mut case.side, 12, 26));
const BEHIND: Fault = (13, |case| set(&mut case.held, 12, 23));

fn try_every_choice(faults: &[Fault], call: fn(&mut Case) -> u32) {
    for choice in 0..1_u32 << faults.len() {
        let mut case = good();
        let mut expected = 0;
        for (_, (number, fault)) in faults
            .iter()
            .enumerate()
            .filter(|(i, _)| choice >> i & 1 == 1)
        {
            fault(&mut case);
            expected = if expected == 0 { *number } else { expected };
        }
        assert_eq!(call(&mut case), expected, "choice {choice:b}");
    }
}

#[test]
fn order_of_take() {
    try_every_choice(
        &[MARK, ZEROS, (2, |case| case.held.truncate(163))],
        call_take,
    );
}

#[test]
fn order_of_refresh() {
    for ticks in [AHEAD, BEHIND] {
        try_every_choice(
            &[HELD, MARK, ZEROS, ticks, (2, |case| case.marks.truncate(5))],
            call_refresh,
        );
    }
}

#[test]
fn order_of_read() {
    let base = (2, (|case| case.base.truncate(6 * 512 - 1)) as fn(&mut Case));
    let image = (14, (|case| case.side[2 * 512 + 300] ^= 4) as fn(&mut Case));
    for ticks in [AHEAD, BEHIND] {
        let faults = [
            HELD,
            MARK,
            ZEROS,
            ticks,
            base,
            (4, |case| case.page = 6),
            (6, |case| case.length = 513),
            image,
        ];
        try_every_choice(&faults, call_read);
    }
}
