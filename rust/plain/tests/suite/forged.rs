//! Forged states and damaged bytes at random: every call answers, and a refusal changes nothing
//! (the bench checks). Numbers are tampered with lightly, so that many a forged state is accepted,
//! and heavily.

use crate::support::*;
use plain::*;

/// Numbers near a limit of something, and any.
fn number(random: &mut Random) -> u32 {
    let near = [
        0,
        1,
        2,
        3,
        4,
        7,
        8,
        9,
        12,
        14,
        15,
        16,
        17,
        20,
        21,
        22,
        512,
        65_535,
        65_536,
        4_294_967_294,
        EMPTY,
    ];
    match random.below(8) {
        0 => random.next() as u32,
        _ => random.pick(&near),
    }
}

fn tamper_with_state(random: &mut Random, bench: &mut Bench) {
    let row = random.below(16) as usize;
    let value = number(random);
    let state = &mut bench.state;
    match random.below(16) {
        0 => state.settings.page_size = random.pick(&[512, 1024, value]),
        1 => state.settings.slots = value,
        2 => state.settings.lag = value,
        3 => state.settings.capacity = value,
        4 => state.end = value,
        5 => state.closed = value,
        6 => state.entries = value,
        7 => state.slots.pages[row] = value,
        8 => state.slots.changed[row] = random.byte(),
        9 => state.slots.order[row] = value,
        10 => state.slots.used = value,
        11 => state.meta.hits = value,
        12 => state.slots.order.swap(row, (row + 1) % 16),
        _ => {
            let at = random.below((bench.ledger.len() / 4) as u32) as usize * 4;
            put_number(&mut bench.ledger, at, value);
        }
    }
}

fn tamper_with_slices(random: &mut Random, bench: &mut Bench) {
    let slices = [
        &mut bench.ledger,
        &mut bench.base,
        &mut bench.side,
        &mut bench.pages,
        &mut bench.kinds,
    ];
    for slice in slices {
        if random.chance(12) {
            slice.truncate(random.below(slice.len() as u32 + 1) as usize);
        }
        if !slice.is_empty() && random.chance(4) {
            let at = random.below(slice.len() as u32) as usize;
            slice[at] = random.byte();
        }
    }
}

/// One call with numbers of any size. The answers are for the tally.
fn call(random: &mut Random, bench: &mut Bench) -> u32 {
    let (page, offset) = (number(random), number(random));
    let length = random.pick(&[0, 1, 2, 100, 512, 513]);
    match random.below(5) {
        0 => bench.read(page, offset, length).0,
        1 => bench.write(page, offset, &vec![1; length]),
        2 => bench.grow(offset),
        3 => bench.close(),
        _ => bench.open(bench.state.settings, bench.state.end, offset),
    }
}

fn a_recorder_in_progress(random: &mut Random) -> Bench {
    let s = settings(512, 1 + random.below(4), 3, 12);
    let mut bench = Bench::opened(s, &[0, 0, 0, 0, 1, 0, 0, 0], random.below(30));
    for _ in 0..random.below(30) {
        match random.below(4) {
            0 => drop(bench.close()),
            1 => drop(bench.read(random.below(8), 0, 9)),
            _ => drop(bench.write(random.below(8), 0, &[3; 9])),
        }
    }
    bench
}

#[test]
fn forged_recorders_are_answered() {
    let mut random = Random::new(7);
    let mut tally = [0_u32; 15];
    for _ in 0..400 {
        let start = a_recorder_in_progress(&mut random);
        for _ in 0..25 {
            let mut bench = start.clone();
            for _ in 0..random.below(4) {
                tamper_with_state(&mut random, &mut bench);
            }
            if random.chance(3) {
                tamper_with_slices(&mut random, &mut bench);
            }
            for _ in 0..3 {
                tally[call(&mut random, &mut bench) as usize] += 1;
            }
        }
    }
    for number in 0..=9 {
        assert!(
            tally[number] > 0,
            "number {number} was never answered: {tally:?}"
        );
    }
    assert_eq!(tally[11..], [0; 4], "numbers of the desk");
}

#[test]
fn states_of_any_numbers_are_answered() {
    let mut random = Random::new(8);
    for _ in 0..3000 {
        let mut bench = Bench::closed(settings(512, 2, 3, 3), &[0; 3]);
        random.fill(&mut bench.ledger);
        let s = settings(
            number(&mut random),
            number(&mut random),
            number(&mut random),
            number(&mut random),
        );
        bench.state = State {
            settings: s,
            end: number(&mut random),
            closed: number(&mut random),
            ..State::default()
        };
        bench.state.entries = number(&mut random);
        for row in 0..16 {
            bench.state.slots.pages[row] = number(&mut random);
            bench.state.slots.order[row] = number(&mut random);
        }
        bench.state.slots.used = number(&mut random);
        call(&mut random, &mut bench);
    }
}

/// Damages header or index in a random place, and mends the checksums most times.
fn damage(random: &mut Random, bytes: &mut Vec<u8>) {
    for _ in 0..random.below(3) {
        let at = random.below(bytes.len().min(164) as u32 / 4) as usize * 4;
        if random.chance(2) {
            put_number(bytes, at, number(random));
        } else {
            bytes[at + random.below(4) as usize] ^= 1 << random.below(8);
        }
    }
    if !random.chance(4) {
        mend(bytes);
    }
    if random.chance(8) {
        bytes.truncate(random.below(bytes.len() as u32) as usize);
    }
}

#[test]
fn damaged_files_are_answered() {
    let mut random = Random::new(9);
    let mut tally = [0_u32; 15];
    for _ in 0..300 {
        let bench = a_recorder_in_progress(&mut random);
        for _ in 0..30 {
            let (mut side, mut held) = (bench.side.clone(), bench.take());
            damage(&mut random, &mut side);
            if random.chance(2) {
                damage(&mut random, &mut held);
            }
            let base =
                &bench.base[..random.pick(&[bench.base.len(), bench.base.len(), 7 * 512, 0])];
            let (page, offset, length) = (
                number(&mut random),
                number(&mut random),
                number(&mut random),
            );
            let found = desk_read(&side, base, &held, page, offset, length);
            tally[found.number as usize] += 1;
            assert!(
                found.number == 0 || (found.source, found.offset, found.bytes.len()) == (0, 0, 0)
            );

            let (held_before, mut marks) = (held.clone(), vec![DIRT; random.pick(&[7, 8, 70_000])]);
            let number = refresh(&side, &mut held, &mut marks);
            tally[number as usize] += 1;
            assert!(number == 0 || (held == held_before && marks.iter().all(|&mark| mark == DIRT)));
            let held_before = held.clone();
            let number = take(&side, &mut held);
            tally[number as usize] += 1;
            assert!(number == 0 || held == held_before);
        }
    }
    for number in [0, 2, 3, 4, 6, 11, 12, 13] {
        assert!(
            tally[number] > 0,
            "number {number} was never answered: {tally:?}"
        );
    }
}
