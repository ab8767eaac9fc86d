//! The order of tests: for every two causes of refusal that can be present in one call, that both
//! were, and the one that is tested first gave the answer.

use super::{Step, Tally};
use crate::judge::Cause::{self, *};

/// Each call with its causes in the order of tests.
const ORDERS: [(&str, &[Cause]); 8] = [
    ("open", &[Settings, Short, Kind]),
    ("read", &[State, Short, Kinds, Page, Kind, Span]),
    ("write", &[State, Short, Kinds, Page, Kind, Span, NoSlot]),
    ("grow", &[State, Short, Kinds, Kind, Full, NoSlot]),
    ("close", &[State, Short, Kinds, LastTick, NoRoom]),
    ("take", &[NotSide, Damaged, Short]),
    ("refresh", &[State, NotSide, Damaged, Lag, Short]),
    ("deskread", &[State, NotSide, Damaged, Lag, Short, Page, Span, Image]),
];

/// Causes that exclude each other, and the two of the same number, which no answer tells apart. A
/// kind that is neither 0 nor 1 asks for no slot; a page beyond the held e has no image; nothing is
/// said of the image of a held buffer that breaks its rules.
const APART: [(Cause, Cause); 4] = [(State, Kinds), (Kind, NoSlot), (Page, Image), (State, Image)];

pub fn names() -> Vec<String> {
    let mut names = Vec::new();
    for (word, order) in ORDERS {
        for (i, &first) in order.iter().enumerate() {
            let later = order[i + 1..].iter().filter(|&&second| !APART.contains(&(first, second)));
            names.extend(later.map(|&second| name(word, first, second)));
        }
    }
    names
}

fn name(word: &str, first: Cause, second: Cause) -> String {
    format!("{word} {} before {}", label(first), label(second))
}

fn label(cause: Cause) -> String {
    match cause {
        Kinds => "3 of the kind table".to_string(),
        _ => cause.number().to_string(),
    }
}

pub fn observe(step: &Step, tally: &mut Tally) {
    if let Some((&first, rest)) = step.causes.split_first() {
        if step.number() == first.number() {
            for &second in rest {
                tally.hit(name(step.word(), first, second));
            }
        }
    }
}
