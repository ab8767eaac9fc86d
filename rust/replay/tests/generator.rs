//! The generator's scripts are fixed by their seeds.

mod common;

use replay::crc::crc32;
use replay::generate::generate;
use replay::script::{self, Item};

#[test]
fn a_script_has_as_many_calls_as_asked_for() {
    for calls in [0, 1, 2, 17, 400] {
        for seed in 0..8 {
            let lines = script::parse(&generate(seed, calls)).expect("a script");
            let made = lines.iter().filter(|line| matches!(line.item, Item::Call(_))).count();
            assert_eq!(made as u64, calls, "seed {seed}");
        }
    }
}

#[test]
fn same_seed_same_script() {
    assert_eq!(generate(7, 500), generate(7, 500));
    assert_ne!(generate(7, 500), generate(8, 500));
}

/// Changes only when the generator does, or the answers of the plain version that it plays on.
#[test]
fn the_script_of_a_seed_is_pinned() {
    assert_eq!(crc32(generate(1, 300).as_bytes()), 3_739_591_425);
}
