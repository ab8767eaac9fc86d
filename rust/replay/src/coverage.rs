//! Which of a fixed list of situations a set of scripts reached. Every call is judged by what it
//! was given, what it answered and what it left; what a script's comments or its generator meant
//! plays no part.

mod answers;
mod arguments;
mod closes;
mod damage;
mod desk;
mod ends;
mod lengths;
mod order_of_tests;
mod rules;
mod settings;
mod slots;
mod step;
mod tally;

pub use step::Step;
pub use tally::Tally;

use crate::run::Machine;
use crate::script::{self, Item, ScriptError};
use crate::version::Version;

/// One part of the list: its names, and the look at a call that counts them.
struct Part {
    names: fn() -> Vec<String>,
    observe: fn(&Step, &mut Tally),
}

const PARTS: [Part; 11] = [
    Part { names: answers::names, observe: answers::observe },
    Part { names: order_of_tests::names, observe: order_of_tests::observe },
    Part { names: settings::names, observe: settings::observe },
    Part { names: lengths::names, observe: lengths::observe },
    Part { names: rules::names, observe: rules::observe },
    Part { names: damage::names, observe: damage::observe },
    Part { names: arguments::names, observe: arguments::observe },
    Part { names: slots::names, observe: slots::observe },
    Part { names: closes::names, observe: closes::observe },
    Part { names: ends::names, observe: ends::observe },
    Part { names: desk::names, observe: desk::observe },
];

/// The whole list, in the order of the report.
fn names() -> Vec<String> {
    PARTS.iter().flat_map(|part| (part.names)()).collect()
}

/// Counts the situations that one call reached.
pub fn observe(step: &Step, tally: &mut Tally) {
    if !step.counts() {
        return;
    }
    for part in &PARTS {
        (part.observe)(step, tally);
    }
}

/// Plays a script and counts what its calls reached.
pub fn observe_script(version: Version, text: &str, tally: &mut Tally) -> Result<(), ScriptError> {
    let mut machine = Machine::new(version);
    for line in script::parse(text)? {
        if let Item::Call(call) = &line.item {
            let before = machine.world.clone();
            let reply = machine.call(call);
            observe(&Step::new(call, &reply, &before, &machine.world), tally);
        } else {
            machine
                .play(&line.item)
                .map_err(|message| ScriptError { line: line.number, message })?;
        }
    }
    Ok(())
}
