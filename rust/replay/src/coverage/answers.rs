//! Every answer that the order of tests allows each call.

use super::{Step, Tally};
use crate::script::Call;

const ANSWERS: [(&str, &[u32]); 8] = [
    ("open", &[0, 1, 2, 5]),
    ("read", &[0, 3, 2, 4, 5, 6]),
    ("write", &[0, 3, 2, 4, 5, 6, 7]),
    ("grow", &[0, 3, 2, 5, 8, 7]),
    ("close", &[0, 3, 2, 9, 10]),
    ("take", &[0, 11, 12, 2]),
    ("refresh", &[0, 3, 11, 12, 13, 2]),
    ("deskread", &[0, 3, 11, 12, 13, 2, 4, 6, 14]),
];

const BEFORE_ANY_OPEN: &str = "read 3: no open was accepted yet";

pub fn names() -> Vec<String> {
    let mut names: Vec<String> = ANSWERS
        .iter()
        .flat_map(|(word, numbers)| numbers.iter().map(move |number| format!("{word} {number}")))
        .collect();
    names.push(BEFORE_ANY_OPEN.to_string());
    names
}

pub fn observe(step: &Step, tally: &mut Tally) {
    tally.hit(format!("{} {}", step.word(), step.number()));
    let reads = matches!(step.call, Call::Read { .. });
    tally.hit_if(reads && step.number() == 3 && step.given.is_none(), BEFORE_ANY_OPEN);
}
