//! The state rules, each broken alone, for every call that judges the state.

use super::{Step, Tally};
use crate::judge::{self, Rule};

const CALLS: [&str; 4] = ["read", "write", "grow", "close"];

pub fn names() -> Vec<String> {
    CALLS.iter().flat_map(|word| Rule::FORGED.map(|rule| name(word, rule))).collect()
}

fn name(word: &str, rule: Rule) -> String {
    format!("{word} 3: {}", rule.name())
}

pub fn observe(step: &Step, tally: &mut Tally) {
    let Some(fields) =
        step.given.as_ref().filter(|_| CALLS.contains(&step.word()) && step.number() == 3)
    else {
        return;
    };
    let mut broken = judge::broken(fields);
    broken.extend(judge::broken_by_kinds(fields, step.before.buffers.kinds.lent()));
    if let &[rule] = broken.as_slice() {
        tally.hit(name(step.word(), rule));
    }
}
