//! Every answer of the plain version to made-up scripts is the number that document 01's table
//! gives, as the judge reads it.

mod common;

use replay::generate::generate;
use replay::judge;

#[test]
fn answers_follow_the_table() {
    for seed in 100..110 {
        common::each_call(&generate(seed, 1500), |played| {
            let must = judge::number(&played.call, &played.before);
            assert_eq!(
                played.reply.number, must,
                "seed {seed}, line {}, {:?}",
                played.line, played.call
            );
        });
    }
}
