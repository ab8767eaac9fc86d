//! The tests of 11 and 12, each failed alone: by the side file for every desk call that makes the
//! test, and by the held buffer, where the answer is 3.

use super::{Step, Tally};
use crate::judge::Fault;

pub fn names() -> Vec<String> {
    let mut names = Vec::new();
    for word in ["take", "refresh", "deskread"] {
        names.extend(side_faults(word).into_iter().map(|fault| side_name(word, fault)));
    }
    for word in ["refresh", "deskread"] {
        let held = Fault::HEADER.into_iter().chain([Fault::TooShort]).chain(Fault::INDEX);
        names.extend(held.map(|fault| held_name(word, fault)));
    }
    names
}

/// The faults a call looks for in the side file.
fn side_faults(word: &str) -> Vec<Fault> {
    let mut faults = Fault::HEADER.to_vec();
    faults.push(Fault::TooShort);
    if word != "deskread" {
        faults.extend(Fault::INDEX);
    }
    if word != "take" {
        faults.extend(Fault::OTHER);
    }
    faults
}

fn side_name(word: &str, fault: Fault) -> String {
    format!("{word} {}: {}", fault.number(), fault.name())
}

fn held_name(word: &str, fault: Fault) -> String {
    format!("{word} 3: held buffer: {}", fault.name())
}

/// A number that no other cause of the call gives, and a single fault behind it.
pub fn observe(step: &Step, tally: &mut Tally) {
    if !step.is_of_desk() {
        return;
    }
    if let (&[fault], 11 | 12) = (step.side_faults().as_slice(), step.number()) {
        tally.hit(side_name(step.word(), fault));
    }
    if let (&[fault], 3) = (step.held_faults().as_slice(), step.number()) {
        tally.hit(held_name(step.word(), fault));
    }
}
