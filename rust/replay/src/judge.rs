//! Says from document 01 why a call must be refused, looking only at what the call is given. It
//! names every cause that is present, not only the first, so that coverage can tell a rule broken
//! alone from one broken among others, and a test can hold every answer of a version against the
//! table.

mod causes;
mod desk;
mod faults;
mod recorder;
mod rules;

pub use causes::Cause;
pub use faults::{differences, faults, Extent, Fault};
pub use recorder::{has_room, needs, shorts};
pub use rules::{broken, broken_by_kinds, Rule};

use crate::run::World;
use crate::script::Call;

/// The causes of refusal that are present, in the order in which the call must test for them.
pub fn causes(call: &Call, world: &World) -> Vec<Cause> {
    match call {
        Call::Take | Call::Refresh | Call::DeskRead { .. } => desk::causes(call, &world.buffers),
        _ => recorder::causes(call, world),
    }
}

/// The number the call must answer.
pub fn number(call: &Call, world: &World) -> u32 {
    causes(call, world).first().map_or(0, |cause| cause.number())
}
