//! The generator reaches every situation of the list.

mod common;

use replay::coverage::{observe_script, Tally};
use replay::generate::generate;

#[test]
fn twelve_seeds_reach_every_situation() {
    let mut tally = Tally::new();
    for seed in 1..=12 {
        observe_script(common::plain(), &generate(seed, 1500), &mut tally).expect("a script");
    }
    assert!(tally.missing().is_empty(), "{}", tally.report());
}
