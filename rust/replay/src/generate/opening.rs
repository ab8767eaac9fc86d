//! Opens with settings in and out of their limits, short buffers and wrong kinds, one or two at a
//! time.

use super::deck::{hands, Hand};
use super::draft::Draft;
use super::stage::{starting_tick, Stage};
use crate::buffers::Name;
use crate::judge::needs;
use crate::judge::Cause::{self, *};
use crate::layout::Layout;

const FAR: u64 = u32::MAX as u64;
const ARRANGED: [(&str, &[Cause]); 1] = [("open", &[Settings, Short, Kind])];
/// Settings outside their limits, and e.
const OUTSIDE: [(char, u64); 18] = [
    ('P', 0),
    ('P', 256),
    ('P', 511),
    ('P', 513),
    ('P', 768),
    ('P', 8192),
    ('P', FAR),
    ('S', 0),
    ('S', 17),
    ('S', FAR),
    ('L', 0),
    ('L', 2),
    ('L', 9),
    ('L', FAR),
    ('E', 0),
    ('E', 65_536),
    ('E', FAR),
    ('e', FAR),
];

pub fn all_hands() -> Vec<Hand> {
    hands(&ARRANGED, 3)
}

pub fn all_settings() -> Vec<(char, u64)> {
    OUTSIDE.to_vec()
}

/// What an open is asked for.
struct Asked {
    stage: Stage,
    end: u64,
}

pub fn play(draft: &mut Draft) {
    draft.comment("opens");
    let (stage, end) = small_stage(draft);
    stage.make_buffers(draft);
    for _ in 0..draft.random.between(20, 40) {
        if draft.is_full() {
            return;
        }
        let hand = draft.decks.opens.draw(&mut draft.random);
        round(draft, &stage, end, &hand);
    }
}

/// Settings of which some are at their limits.
fn small_stage(draft: &mut Draft) -> (Stage, u64) {
    let random = &mut draft.random;
    let page_size = *random.pick(&[512, 512, 512, 1024, 2048, 4096]);
    let slot_count =
        if page_size == 512 { *random.pick(&[1, 2, 16]) } else { *random.pick(&[1, 2]) };
    let layout = Layout { page_size, slot_count, lag: *random.pick(&[3, 3, 8]) };
    let capacity = *random.pick(&[1, 2, 6]);
    let end = *random.pick(&[0, capacity, capacity]);
    (Stage { layout, capacity }, end)
}

fn round(draft: &mut Draft, stage: &Stage, end: u64, hand: &Hand) {
    let mut asked = Asked { stage: *stage, end };
    if hand.has(Settings) {
        set_outside(draft, &mut asked, hand);
    }
    if hand.has(Short) {
        let (name, needed) = *draft.random.pick(&needs(&stage.fields()));
        let less = if draft.random.one_in(3) { draft.random.below(needed) } else { needed - 1 };
        draft.lend_for_now(name, less);
    } else if draft.random.one_in(2) {
        for (name, needed) in needs(&stage.fields()) {
            draft.lend_for_now(name, needed);
        }
    }
    if hand.has(Kind) {
        spoil_kind(draft, end);
    }
    let tick = starting_tick(&mut draft.random);
    draft.call(asked.stage.open_line(asked.end, tick));
    draft.undo();
}

/// Only e above E leaves settings by which a buffer can be too short.
fn set_outside(draft: &mut Draft, asked: &mut Asked, hand: &Hand) {
    if hand.has(Short) || draft.random.one_in(4) {
        asked.end = asked.stage.capacity + 1;
        return;
    }
    let (setting, value) = draft.decks.settings.draw(&mut draft.random);
    match setting {
        'P' => asked.stage.layout.page_size = value,
        'S' => asked.stage.layout.slot_count = value,
        'L' => asked.stage.layout.lag = value,
        'E' => asked.stage.capacity = value,
        _ => asked.end = value,
    }
}

/// The last kind below e, another one, or the one at e, which is nobody's concern.
fn spoil_kind(draft: &mut Draft, end: u64) {
    let page = *draft.random.pick(&[end.saturating_sub(1), end / 2, end]);
    let kind = *draft.random.pick(&[2, 255]);
    draft.poke_for_now(Name::Kinds, page as usize, &[kind]);
}
