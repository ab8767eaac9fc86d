//! Lent slices: each one byte too short, alone, for every call that needs it; each just long
//! enough; and all longer than needed.

use super::{Step, Tally};
use crate::buffers::Name;
use crate::fields::Fields;
use crate::judge::{self, Cause, Fault};
use crate::script::Call;

const RECORDER: [&str; 5] = ["open", "read", "write", "grow", "close"];
/// The buffers a call judges by 2, and the desk's calls with the number a buffer's shortness gives.
const LENT: [Name; 4] = [Name::Base, Name::Side, Name::Pages, Name::Kinds];
const DESK: [(&str, Name, u32); 8] = [
    ("take", Name::Side, 12),
    ("take", Name::Held, 2),
    ("refresh", Name::Side, 12),
    ("refresh", Name::Held, 3),
    ("refresh", Name::Marks, 2),
    ("deskread", Name::Side, 12),
    ("deskread", Name::Held, 3),
    ("deskread", Name::Base, 2),
];
/// A header without its last byte, and a header alone.
const HEADERLESS: [(&str, Name, u32); 5] = [
    ("take", Name::Side, 11),
    ("refresh", Name::Side, 11),
    ("refresh", Name::Held, 3),
    ("deskread", Name::Side, 11),
    ("deskread", Name::Held, 3),
];

const HEADER_ALONE: [(&str, Name, u32); 5] = [
    ("take", Name::Side, 12),
    ("refresh", Name::Side, 12),
    ("refresh", Name::Held, 3),
    ("deskread", Name::Side, 12),
    ("deskread", Name::Held, 3),
];

pub fn names() -> Vec<String> {
    let recorder = RECORDER.iter().flat_map(|word| LENT.map(|name| (*word, name, 2)));
    let mut names = Vec::new();
    for (word, name, number) in recorder.chain(DESK) {
        names.push(one_short(word, name, number));
        names.push(just_enough(word, name));
    }
    names.extend(HEADERLESS.map(|(word, name, number)| of_35_bytes(word, name, number)));
    names.extend(HEADER_ALONE.map(|(word, name, number)| of_36_bytes(word, name, number)));
    names.extend(
        RECORDER.iter().chain(&["take", "refresh", "deskread"]).map(|word| all_longer(word)),
    );
    names
}

fn one_short(word: &str, name: Name, number: u32) -> String {
    format!("{word} {number}: {} one byte short", name.word())
}

fn just_enough(word: &str, name: Name) -> String {
    format!("{word} 0: {} just long enough", name.word())
}

fn of_35_bytes(word: &str, name: Name, number: u32) -> String {
    format!("{word} {number}: {} of 35 bytes", name.word())
}

fn of_36_bytes(word: &str, name: Name, number: u32) -> String {
    format!("{word} {number}: {} of 36 bytes", name.word())
}

fn all_longer(word: &str) -> String {
    format!("{word} 0: all buffers longer than needed")
}

pub fn observe(step: &Step, tally: &mut Tally) {
    if step.is_of_desk() {
        observe_desk(step, tally);
    } else {
        observe_recorder(step, tally);
    }
}

/// The state that says what the recorder's call needs.
fn asked(step: &Step) -> Option<Fields> {
    match step.call {
        Call::Open { settings, .. } => Some(Fields {
            page_size: u64::from(settings.page_size),
            slot_count: u64::from(settings.slots),
            lag: u64::from(settings.lag),
            capacity: u64::from(settings.capacity),
            ..Fields::default()
        }),
        _ => step.given.clone(),
    }
}

fn observe_recorder(step: &Step, tally: &mut Tally) {
    let Some(fields) = asked(step) else {
        return;
    };
    let shorts = judge::shorts(&fields, &step.before.buffers);
    if let ([(name, 1)], true) = (shorts.as_slice(), step.refused_only(Cause::Short)) {
        tally.hit(one_short(step.word(), *name, 2));
    }
    if step.accepted() {
        observe_enough(step, &judge::needs(&fields), tally);
    }
}

fn observe_enough(step: &Step, needs: &[(Name, u64)], tally: &mut Tally) {
    let lent = |name: Name| step.before.buffers.get(name).lent().len() as u64;
    for &(name, needed) in needs {
        tally.hit_if(lent(name) == needed, just_enough(step.word(), name));
    }
    tally.hit_if(needs.iter().all(|&(name, needed)| lent(name) > needed), all_longer(step.word()));
}

fn observe_desk(step: &Step, tally: &mut Tally) {
    let needs = desk_needs(step);
    let lent = |name: Name| step.before.buffers.get(name).lent().len() as u64;
    let mine = |wanted: &&(&str, Name, u32)| wanted.0 == step.word() && wanted.2 == step.number();
    for &(word, name, number) in DESK.iter().filter(mine) {
        let short = needs.contains(&(name, lent(name) + 1)) && is_only_short(step, name);
        tally.hit_if(short, one_short(word, name, number));
    }
    for &(word, name, number) in HEADERLESS.iter().filter(mine) {
        tally.hit_if(lent(name) == 35, of_35_bytes(word, name, number));
    }
    for &(word, name, number) in HEADER_ALONE.iter().filter(mine) {
        let short = lent(name) == 36 && is_only_short(step, name);
        tally.hit_if(short, of_36_bytes(word, name, number));
    }
    if step.accepted() {
        observe_enough(step, &needs, tally);
    }
}

/// Whether nothing else is wrong in the buffer that could give the same answer.
fn is_only_short(step: &Step, name: Name) -> bool {
    match (name, step.number()) {
        (Name::Side, _) => step.side_faults() == [Fault::TooShort],
        (Name::Held, 3) => step.held_faults() == [Fault::TooShort],
        _ => true,
    }
}

/// What the desk's call needs, by the headers it is given.
fn desk_needs(step: &Step) -> Vec<(Name, u64)> {
    let Some(new) = step.side_header() else {
        return Vec::new();
    };
    let side = (Name::Side, new.layout().side_length());
    match (step.call, step.held_header()) {
        (Call::Take, _) => vec![side, (Name::Held, new.layout().held_length())],
        (Call::Refresh, Some(old)) => {
            vec![side, (Name::Held, old.layout().held_length()), (Name::Marks, u64::from(new.end))]
        }
        (_, Some(old)) => {
            let base = u64::from(old.page_size) * u64::from(old.end);
            vec![side, (Name::Held, old.layout().held_length()), (Name::Base, base)]
        }
        _ => vec![side],
    }
}
