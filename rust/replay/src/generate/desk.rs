//! A desk put before chosen causes of refusal: side file and held buffer are made up, with one
//! fault where a cause asks for it; then the call comes, and the next round makes them up anew.

use super::damage::damage;
use super::deck::{hands, Hand};
use super::draft::Draft;
use super::random::Random;
use super::side_model::SideModel;
use super::span;
use super::stage::Stage;
use crate::buffers::Name;
use crate::judge::Cause::{self, *};
use crate::judge::Fault;
use crate::layout::{Layout, LAGS, PAGE_SIZES, SLOT_COUNTS};
use crate::sidefile::Row;

/// Tries at made-up files that have what it takes for a fault.
const TRIES: usize = 40;
/// The causes that can be arranged for each call.
const ARRANGED: [(&str, &[Cause]); 3] = [
    ("take", &[NotSide, Damaged, Short]),
    ("refresh", &[State, NotSide, Damaged, Lag, Short]),
    ("deskread", &[State, NotSide, Damaged, Lag, Short, Page, Span, Image]),
];

/// All hands, with some more for the many spans.
pub fn all_hands() -> Vec<Hand> {
    let spans = (0..6).map(|_| Hand::one("deskread", Span));
    hands(&ARRANGED, 6).into_iter().chain(spans).collect()
}

/// Every call with every fault it can meet, in the side file and in the held buffer.
pub fn all_faults() -> Vec<(&'static str, Name, Fault)> {
    let file: Vec<Fault> =
        Fault::HEADER.into_iter().chain([Fault::TooShort]).chain(Fault::INDEX).collect();
    let cards = |word, name, faults: &[Fault]| {
        faults.iter().map(move |&fault| (word, name, fault)).collect::<Vec<_>>()
    };
    let mut all = cards("take", Name::Side, &file);
    for word in ["refresh", "deskread"] {
        all.extend(cards(word, Name::Side, &file));
        all.extend(cards(word, Name::Side, &Fault::OTHER));
        all.extend(cards(word, Name::Side, &[Fault::TooShort; 2]));
        all.extend(cards(word, Name::Held, &file));
    }
    all
}

pub fn play(draft: &mut Draft) {
    draft.comment("made-up side files");
    let stage = desk_stage(&mut draft.random);
    stage.make_buffers(draft);
    for _ in 0..draft.random.between(30, 60) {
        if draft.is_full() {
            return;
        }
        if draft.random.one_in(2) {
            one_fault(draft, &stage);
        } else {
            one_hand(draft, &stage);
        }
    }
}

/// Settings each of which has another allowed one below it, or is at its limit.
fn desk_stage(random: &mut Random) -> Stage {
    let layout = Layout {
        page_size: *random.pick(&[512, 512, 1024]),
        slot_count: random.between(1, 3),
        lag: *random.pick(&[3, 4, 5]),
    };
    let capacity = if random.one_in(2) { random.between(1, 6) } else { layout.index_entries() + 2 };
    Stage { layout, capacity }
}

/// What a round has made up so far.
struct Round {
    held: SideModel,
    side: SideModel,
}

fn one_fault(draft: &mut Draft, stage: &Stage) {
    let (word, name, fault) = draft.decks.faults.draw(&mut draft.random);
    let hand = Hand { word, causes: [None, None] };
    for _ in 0..TRIES {
        let mut made = make_up(draft, stage, &hand);
        let model = if name == Name::Held { &mut made.held } else { &mut made.side };
        if spoil_with(draft, name, model, fault) {
            return round(draft, &hand, &made);
        }
    }
}

fn one_hand(draft: &mut Draft, stage: &Stage) {
    let hand = draft.decks.desk.draw(&mut draft.random);
    let mut made = make_up(draft, stage, &hand);
    if hand.has(State) {
        spoil(
            draft,
            Name::Held,
            &mut made.held,
            &[&Fault::HEADER, &Fault::INDEX, &[Fault::TooShort]],
        );
    }
    if hand.has(NotSide) {
        spoil(
            draft,
            Name::Side,
            &mut made.side,
            &[&[Fault::Under36, Fault::Mark, Fault::Byte3, Fault::Version]],
        );
    }
    if hand.has(Damaged) {
        let index: &[Fault] = if hand.word == "deskread" { &[] } else { &Fault::INDEX };
        spoil(
            draft,
            Name::Side,
            &mut made.side,
            &[&[Fault::HeaderSum, Fault::End, Fault::Bytes26And27], index],
        );
    } else if hand.word == "deskread" && draft.random.one_in(6) {
        spoil(draft, Name::Side, &mut made.side, &[&Fault::INDEX]);
    }
    round(draft, &hand, &made);
}

/// Writes what was made up over the two files, lends, calls, and puts the lengths back.
fn round(draft: &mut Draft, hand: &Hand, made: &Round) {
    draft.poke(Name::Side, 0, &made.side.bytes());
    draft.poke(Name::Held, 0, &made.held.bytes());
    let line = call_line(draft, made, hand);
    lend(draft, made, hand);
    draft.call(line);
    draft.undo();
}

/// A held buffer and a side file of the same settings, some ticks apart, with some entries in
/// common.
fn make_up(draft: &mut Draft, stage: &Stage, hand: &Hand) -> Round {
    let side_bytes = draft.bytes(Name::Side).to_vec();
    let random = &mut draft.random;
    let layout = stage.layout;
    let (held_tick, side_tick) = ticks(random, layout.lag as u32, hand.has(Lag));
    let held_end = end(random, stage.capacity);
    let side_end = if random.one_in(2) { held_end } else { end(random, stage.capacity) };
    let held = SideModel::good(random, layout, held_tick, held_end, &side_bytes);
    let fresh = SideModel::good(random, layout, side_tick, side_end, &side_bytes);
    let side = match random.below(3) {
        0 => fresh,
        _ => SideModel::of(
            layout,
            side_tick,
            side_end,
            kept_rows(random, &held, side_tick, side_end),
        ),
    };
    Round { held, side }
}

/// Any e up to the stage's E; now and then the largest that a header may name.
fn end(random: &mut Random, capacity: u64) -> u32 {
    if random.one_in(20) {
        return 65_535;
    }
    let low = *random.pick(&[0, capacity.min(2), capacity.min(2), capacity]);
    random.between(low, capacity) as u32
}

/// The held tick and the side file's: equal, within the lag, or on wish just outside it.
fn ticks(random: &mut Random, lag: u32, too_far: bool) -> (u32, u32) {
    let held = *random.pick(&[0, 1, 7, 1000, u32::MAX - lag - 1, u32::MAX - lag, u32::MAX - 1]);
    let apart = *random.pick(&[0, 1, lag - 1, lag, lag]);
    if !too_far {
        return (held, held.saturating_add(apart));
    }
    match (held.checked_sub(1), held.checked_add(lag + 1)) {
        (Some(before), _) if random.one_in(2) => (held, before),
        (_, Some(after)) => (held, after),
        _ => (held, 0),
    }
}

/// The held entries of pages still below e; some changed since, in their places.
fn kept_rows(random: &mut Random, held: &SideModel, tick: u32, end: u32) -> Vec<Row> {
    let kept = held.rows.iter().filter(|row| row.page < end && row.last_change <= tick);
    kept.map(|row| Row {
        last_change: if random.one_in(2) { tick } else { row.last_change },
        ..*row
    })
    .collect()
}

/// One of the faults, the first of a few tries that can be.
fn spoil(draft: &mut Draft, name: Name, model: &mut SideModel, faults: &[&[Fault]]) {
    let faults = faults.concat();
    for _ in 0..TRIES {
        let fault = *draft.random.pick(&faults);
        if spoil_with(draft, name, model, fault) {
            return;
        }
    }
}

/// Adds a fault: whether it could.
fn spoil_with(draft: &mut Draft, name: Name, model: &mut SideModel, fault: Fault) -> bool {
    match fault {
        Fault::TooShort | Fault::Under36 => {
            let length = short_length(draft, name, model, fault);
            draft.lend_for_now(name, length);
            true
        }
        Fault::OtherLag | Fault::OtherPageSize | Fault::OtherSlotCount => {
            other_settings(fault, model)
        }
        _ => damage(&mut draft.random, fault, model),
    }
}

/// A length that lacks one byte more often than not, or is that of a header alone.
fn short_length(draft: &mut Draft, name: Name, model: &SideModel, fault: Fault) -> u64 {
    let layout = model.header.layout();
    let needed = match (fault, name) {
        (Fault::Under36, _) => return *draft.random.pick(&[35, 35, 35, 0, 4, 34]),
        (_, Name::Held) => layout.held_length(),
        _ => layout.side_length(),
    };
    let any = draft.random.between(36, needed - 1);
    *draft.random.pick(&[needed - 1, needed - 1, any, 36])
}

/// The side file of another recording: one setting smaller, with as many of the entries as fit it.
fn other_settings(fault: Fault, side: &mut SideModel) -> bool {
    let was = side.header.layout();
    let mut layout = was;
    match fault {
        Fault::OtherLag => layout.lag = (was.lag - 1).max(*LAGS.start()),
        Fault::OtherSlotCount => layout.slot_count = (was.slot_count - 1).max(*SLOT_COUNTS.start()),
        _ => layout.page_size = PAGE_SIZES[0],
    }
    let mut rows = side.rows.clone();
    rows.retain(|row| u64::from(row.place) < layout.image_places());
    rows.truncate(layout.index_entries() as usize);
    *side = SideModel::of(layout, side.header.closed, side.header.end, rows);
    layout != was
}

/// One buffer too short for the call, or at times all just long enough.
fn lend(draft: &mut Draft, made: &Round, hand: &Hand) {
    let layout = made.held.header.layout();
    let (name, needed) = match hand.word {
        "take" => (Name::Held, made.side.header.layout().held_length()),
        "refresh" => (Name::Marks, u64::from(made.side.header.end)),
        _ => (Name::Base, u64::from(made.held.header.end) * layout.page_size),
    };
    if hand.has(Short) && needed > 0 {
        let less = if draft.random.one_in(3) { draft.random.below(needed) } else { needed - 1 };
        draft.lend_for_now(name, less);
    } else if hand.is_empty() && !draft.has_undo() && draft.random.one_in(2) {
        draft.lend_for_now(name, needed);
        draft.lend_for_now(Name::Side, layout.side_length());
        draft.lend_for_now(Name::Held, layout.held_length());
    }
}

fn call_line(draft: &mut Draft, made: &Round, hand: &Hand) -> String {
    if hand.word != "deskread" {
        return hand.word.to_string();
    }
    let layout = made.held.header.layout();
    let page = named_page(draft, made, hand);
    let page_size =
        if PAGE_SIZES.contains(&layout.page_size) { layout.page_size } else { PAGE_SIZES[0] };
    let (offset, length) = match hand.has(Span) {
        true => span::outside(draft, hand.word, page_size),
        false => span::inside(&mut draft.random, page_size),
    };
    format!("deskread {page} {offset} {length}")
}

/// A page to read, with an image that is damaged on wish.
fn named_page(draft: &mut Draft, made: &Round, hand: &Hand) -> u32 {
    let end = made.held.header.end;
    if hand.has(Page) {
        return *draft.random.pick(&[end, end, u32::MAX]);
    }
    let row = draft.random.pick_any(&made.held.rows);
    if let (Some(row), true) = (row, hand.has(Image) || draft.random.one_in(8)) {
        damage_image(draft, made.held.header.layout(), row.place);
    }
    match row {
        Some(row) if hand.has(Image) || draft.random.one_in(2) => row.page,
        _ => draft.random.below(u64::from(end)) as u32,
    }
}

fn damage_image(draft: &mut Draft, layout: Layout, place: u32) {
    let offset = layout.image_offset(u64::from(place)) + draft.random.below(layout.page_size);
    let byte = draft.bytes(Name::Side).get(offset as usize).copied().unwrap_or(0);
    draft.poke_for_now(Name::Side, offset as usize, &[!byte]);
}
