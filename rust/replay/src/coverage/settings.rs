//! The limits of the settings at open, each reached and each passed by the least step, alone.

use super::{Step, Tally};
use crate::judge::Cause;
use crate::layout::{CAPACITIES, LAGS, LAST_TICK, PAGE_SIZES, SLOT_COUNTS};
use crate::script::Call;

/// Settings outside their limits that must be tried: P, S, L, E.
const OUTSIDE: [(&str, &[u64]); 4] =
    [("P", &[0, 256, 511, 513, 768, 8192]), ("S", &[0, 17]), ("L", &[2, 9]), ("E", &[0, 65_536])];
/// Settings at their limits that must be accepted. The largest E needs a base of 32 MiB and has a
/// test of its own.
const INSIDE: [(&str, &[u64]); 4] =
    [("P", &PAGE_SIZES), ("S", &[1, 16]), ("L", &[3, 8]), ("E", &[1])];

const ONE_ABOVE: &str = "open 1: e one above E";
const LAST_END: &str = "open 1: e at 4294967295";
const EMPTY_FILE: &str = "open 0: e = 0";
const FULL_FILE: &str = "open 0: e = E";
const FIRST_TICK: &str = "open 0: starting tick 0";
const AT_LAST_TICK: &str = "open 0: starting tick 4294967295";

pub fn names() -> Vec<String> {
    let mut names = Vec::new();
    for (setting, values) in OUTSIDE {
        names.extend(values.iter().map(|value| format!("open 1: {setting} = {value}")));
    }
    for (setting, values) in INSIDE {
        names.extend(values.iter().map(|value| format!("open 0: {setting} = {value}")));
    }
    names.extend(
        [ONE_ABOVE, LAST_END, EMPTY_FILE, FULL_FILE, FIRST_TICK, AT_LAST_TICK].map(String::from),
    );
    names
}

pub fn observe(step: &Step, tally: &mut Tally) {
    let Call::Open { settings, end, tick } = step.call else {
        return;
    };
    let values = [
        ("P", u64::from(settings.page_size)),
        ("S", u64::from(settings.slots)),
        ("L", u64::from(settings.lag)),
        ("E", u64::from(settings.capacity)),
    ];
    let (end, capacity) = (u64::from(*end), u64::from(settings.capacity));
    if step.refused_only(Cause::Settings) {
        observe_refused(&values, end, capacity, tally);
    }
    if step.accepted() {
        for (setting, value) in values {
            tally.hit(format!("open 0: {setting} = {value}"));
        }
        tally.hit_if(end == 0, EMPTY_FILE);
        tally.hit_if(end == capacity, FULL_FILE);
        tally.hit_if(*tick == 0, FIRST_TICK);
        tally.hit_if(u64::from(*tick) == LAST_TICK, AT_LAST_TICK);
    }
}

/// Counts a setting that alone is outside its limits, or e if none is.
fn observe_refused(values: &[(&str, u64); 4], end: u64, capacity: u64, tally: &mut Tally) {
    let outside: Vec<&(&str, u64)> = values.iter().filter(|value| is_outside(value)).collect();
    match outside.as_slice() {
        [] => {
            tally.hit_if(end == capacity + 1, ONE_ABOVE);
            tally.hit_if(end == u64::from(u32::MAX), LAST_END);
        }
        [(setting, value)] => tally.hit(format!("open 1: {setting} = {value}")),
        _ => {}
    }
}

fn is_outside((setting, value): &(&str, u64)) -> bool {
    match *setting {
        "P" => !PAGE_SIZES.contains(value),
        "S" => !SLOT_COUNTS.contains(value),
        "L" => !LAGS.contains(value),
        _ => !CAPACITIES.contains(value),
    }
}
