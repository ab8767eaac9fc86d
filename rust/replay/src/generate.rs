//! Makes up a call script from a seed. Scenes follow each other until enough calls are made:
//! recordings as they happen, and directed ones that put a recorder or a desk before one or two
//! chosen causes of refusal. While it writes, the generator plays its own lines on the plain
//! version, so that each scene knows where it stands. Nothing but the seed decides: no clock, no
//! address, no width of the machine's numbers.

mod break_rule;
mod damage;
mod deck;
mod desk;
mod draft;
mod forged;
mod good_state;
mod largest;
mod opening;
mod random;
mod recording;
mod side_model;
mod span;
mod stage;

use draft::Draft;

/// The script of a seed, with exactly so many calls.
pub fn generate(seed: u64, calls: u64) -> String {
    let mut draft = Draft::new(seed, calls);
    draft.comment(&format!("replay --generate {seed} {calls}"));
    before_any_open(&mut draft);
    while !draft.is_full() {
        match draft.random.below(20) {
            0..=6 => recording::play(&mut draft),
            7..=12 => forged::play(&mut draft),
            13..=16 => desk::play(&mut draft),
            17..=18 => opening::play(&mut draft),
            _ => largest::play(&mut draft),
        }
    }
    draft.into_text()
}

/// A recorder call without a state.
fn before_any_open(draft: &mut Draft) {
    let calls = ["read 0 0 1", "read 0 0 1", "write 0 0 00", "grow 0", "close"];
    let call = *draft.random.pick(&calls);
    draft.call(call);
}
