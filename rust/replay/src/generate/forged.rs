//! A recorder put before chosen causes of refusal: a good state is made up to fit them, named by a
//! state line, and spoilt where a cause asks for it; then the call comes, and all is put back for
//! the next round.

use super::break_rule::break_rule;
use super::deck::{hands, Hand};
use super::draft::Draft;
use super::good_state::{good_state, Crowd, Wish};
use super::random::Random;
use super::span;
use super::stage::Stage;
use crate::buffers::Name;
use crate::fields::Fields;
use crate::judge::Cause::{self, *};
use crate::judge::{broken, needs, Rule};

/// The causes that can be arranged for each call. A read is never refused for want of a slot, but
/// reads on.
const ARRANGED: [(&str, &[Cause]); 4] = [
    ("read", &[State, Short, Kinds, Page, Kind, Span, NoSlot]),
    ("write", &[State, Short, Kinds, Page, Kind, Span, NoSlot]),
    ("grow", &[State, Short, Kinds, Kind, Full, NoSlot]),
    ("close", &[State, Short, Kinds, LastTick, NoRoom]),
];
/// Tries at a state that has what it takes to break a rule.
const TRIES: usize = 40;

/// All hands, with some more for the many spans.
pub fn all_hands() -> Vec<Hand> {
    let spans = (0..6).map(|i| Hand::one(if i % 2 == 0 { "read" } else { "write" }, Span));
    hands(&ARRANGED, 6).into_iter().chain(spans).collect()
}

/// Every call with every rule.
pub fn all_rules() -> Vec<(&'static str, Rule)> {
    ARRANGED.iter().flat_map(|&(word, _)| Rule::FORGED.map(|rule| (word, rule))).collect()
}

/// Every call with every buffer, by its number among the needs.
pub fn all_shorts() -> Vec<(&'static str, usize)> {
    ARRANGED.iter().flat_map(|&(word, _)| (0..4).map(move |buffer| (word, buffer))).collect()
}

pub fn play(draft: &mut Draft) {
    let stage = Stage::roomy(&mut draft.random);
    draft.comment("made-up states");
    stage.make_buffers(draft);
    for _ in 0..draft.random.between(20, 40) {
        if draft.is_full() {
            return;
        }
        match draft.random.below(10) {
            0..=2 => one_rule(draft, &stage),
            3 => one_short(draft, &stage),
            4 => beyond(draft, &stage),
            _ => one_hand(draft, &stage),
        }
    }
}

fn one_hand(draft: &mut Draft, stage: &Stage) {
    let hand = draft.decks.recorder.draw(&mut draft.random);
    let good = state_for(draft, stage, &hand);
    let named =
        if hand.has(State) { broken_somehow(&mut draft.random, &good) } else { good.clone() };
    round(draft, &hand, &good, &named);
}

fn one_rule(draft: &mut Draft, stage: &Stage) {
    let (word, rule) = draft.decks.rules.draw(&mut draft.random);
    let hand = Hand::one(word, if is_of_kinds(rule) { Kinds } else { State });
    for _ in 0..TRIES {
        let good = state_for(draft, stage, &hand);
        let mut named = good.clone();
        if break_rule(&mut draft.random, rule, &mut named) && broken(&named) == [rule] {
            return round(draft, &hand, &good, &named);
        }
        if is_of_kinds(rule) && spoil_kind_for(draft, &good, rule) {
            return round(draft, &Hand { word, causes: [None, None] }, &good, &good);
        }
    }
}

fn is_of_kinds(rule: Rule) -> bool {
    matches!(rule, Rule::SlotPageNotMetadata | Rule::EntryPageNotMetadata)
}

fn one_short(draft: &mut Draft, stage: &Stage) {
    let (word, buffer) = draft.decks.shorts.draw(&mut draft.random);
    let hand = Hand { word, causes: [None, None] };
    let good = state_for(draft, stage, &hand);
    let (name, needed) = needs(&good)[buffer];
    draft.lend_for_now(name, needed - 1);
    round(draft, &hand, &good, &good);
}

/// A state that struct and ledger cannot hold.
fn beyond(draft: &mut Draft, stage: &Stage) {
    let hand = Hand { word: "close", causes: [None, None] };
    let fields = state_for(draft, stage, &hand);
    let mut line = format!("state P={} S={} L={}", fields.page_size, fields.slot_count, fields.lag);
    line += &format!(" E={} e={} tick={} ", fields.capacity, fields.end, fields.tick);
    let retired_beyond = format!("retired={}:0", stage.layout.image_places());
    line += *draft.random.pick(&[
        "retired=0:0,0:0",
        &retired_beyond,
        "order=0",
        "slots=4294967295",
        "changed=16",
    ]);
    draft.prepare(line);
    let call = *draft.random.pick(&["read 0 0 1", "write 0 0 00", "grow 0", "close"]);
    draft.call(call);
}

fn state_for(draft: &mut Draft, stage: &Stage, hand: &Hand) -> Fields {
    let wish = Wish {
        stuck: hand.has(NoSlot),
        full: hand.has(Full),
        last_tick: hand.has(LastTick),
        crowd: crowd(&mut draft.random, hand.has(NoRoom)),
    };
    let kinds = draft.bytes(Name::Kinds).to_vec();
    good_state(&mut draft.random, stage, &kinds, wish)
}

fn crowd(random: &mut Random, over: bool) -> Crowd {
    match random.below(if over { 2 } else { 4 }) {
        0 => Crowd::Places { over },
        1 => Crowd::Entries { over },
        _ => Crowd::Loose,
    }
}

/// The state with a rule broken, the first of a few tries that can be.
fn broken_somehow(random: &mut Random, good: &Fields) -> Fields {
    for _ in 0..TRIES {
        let rule = *random.pick(&Rule::FORGED);
        let mut fields = good.clone();
        if break_rule(random, rule, &mut fields) {
            return fields;
        }
    }
    good.clone()
}

/// Names the state, arranges the rest of the hand, calls, and puts all back.
fn round(draft: &mut Draft, hand: &Hand, good: &Fields, named: &Fields) {
    draft.state(named);
    lend(draft, good, hand);
    if hand.has(Kinds) {
        spoil_kind_in_use(draft, good);
    }
    if draft.random.one_in(5) {
        spoil_kind_unused(draft, good);
    }
    let line = call_line(draft, good, hand);
    let answer = draft.call(line);
    draft.undo();
    if answer == Some(0) {
        go_on(draft);
    }
}

/// One buffer too short, by a byte more often than not; or at times all just long enough.
fn lend(draft: &mut Draft, fields: &Fields, hand: &Hand) {
    let needs = needs(fields);
    if hand.has(Short) {
        let &(name, needed) = draft.random.pick(&needs);
        let less = if draft.random.one_in(3) { draft.random.below(needed) } else { needed - 1 };
        draft.lend_for_now(name, less);
    } else if hand.is_empty() && !draft.has_undo() && draft.random.one_in(2) {
        for (name, needed) in needs {
            draft.lend_for_now(name, needed);
        }
    }
}

fn other_kind(random: &mut Random) -> u8 {
    *random.pick(&[1, 2, 255])
}

fn slot_pages(fields: &Fields) -> Vec<u64> {
    fields.slots.iter().flatten().copied().collect()
}

fn entry_pages(fields: &Fields) -> Vec<u64> {
    fields.entries.iter().map(|entry| entry.page).collect()
}

/// A page in a slot or with an entry is called raw, or something that is no kind.
fn spoil_kind_in_use(draft: &mut Draft, fields: &Fields) {
    let used = [slot_pages(fields), entry_pages(fields)].concat();
    spoil_kind_of_one(draft, &used);
}

/// The same, so that only this one of the two rules breaks: whether there is such a page.
fn spoil_kind_for(draft: &mut Draft, fields: &Fields, rule: Rule) -> bool {
    let (mut pages, others) = match rule {
        Rule::SlotPageNotMetadata => (slot_pages(fields), entry_pages(fields)),
        _ => (entry_pages(fields), slot_pages(fields)),
    };
    pages.retain(|page| !others.contains(page));
    spoil_kind_of_one(draft, &pages)
}

fn spoil_kind_of_one(draft: &mut Draft, pages: &[u64]) -> bool {
    let Some(page) = draft.random.pick_any(pages) else {
        return false;
    };
    let kind = other_kind(&mut draft.random);
    draft.poke_for_now(Name::Kinds, page as usize, &[kind]);
    true
}

/// Kinds of pages that no slot and no entry has are nobody's concern until they are named.
fn spoil_kind_unused(draft: &mut Draft, fields: &Fields) {
    if let Some(page) = unused_page(draft, fields) {
        draft.poke_for_now(Name::Kinds, page as usize, &[2]);
    }
}

fn unused_page(draft: &mut Draft, fields: &Fields) -> Option<u64> {
    let unused: Vec<u64> = (0..fields.end)
        .filter(|&page| fields.slot_of(page).is_none() && fields.entry_of(page).is_none())
        .collect();
    draft.random.pick_any(&unused)
}

fn call_line(draft: &mut Draft, fields: &Fields, hand: &Hand) -> String {
    match hand.word {
        "grow" if hand.has(Kind) => {
            format!("grow {}", draft.random.pick(&[2, 2, 255, 256, 256, u32::MAX]))
        }
        "grow" => format!("grow {}", u32::from(!hand.has(NoSlot) && draft.random.one_in(3))),
        "close" => "close".to_string(),
        _ => span_line(draft, fields, hand),
    }
}

fn span_line(draft: &mut Draft, fields: &Fields, hand: &Hand) -> String {
    let page = named_page(draft, fields, hand);
    let (offset, length) = match hand.has(Span) {
        true => span::outside(draft, hand.word, fields.page_size),
        false => span::inside(&mut draft.random, fields.page_size),
    };
    if hand.word == "read" {
        return format!("read {page} {offset} {length}");
    }
    let data = span::data(&mut draft.random, length);
    format!("write {page} {offset} {data}")
}

/// A page to read or write. The causes may ask for one not below e, for one whose kind is spoilt,
/// or for one that has no slot; a page not below e can be given a kind for the other two.
fn named_page(draft: &mut Draft, fields: &Fields, hand: &Hand) -> u64 {
    if hand.has(Page) {
        let page = *draft.random.pick(&[fields.end, fields.end, fields.end, u64::from(u32::MAX)]);
        let kind = if hand.has(Kind) { 2 } else { 0 };
        draft.poke_for_now(Name::Kinds, page as usize, &[kind]);
        return page;
    }
    if let (true, Some(page)) = (hand.has(Kind), unused_page(draft, fields)) {
        draft.poke_for_now(Name::Kinds, page as usize, &[2]);
        return page;
    }
    let kinds = draft.bytes(Name::Kinds);
    let metadata: Vec<u64> = (0..fields.end).filter(|&page| kinds[page as usize] == 0).collect();
    let outside: Vec<u64> =
        metadata.iter().copied().filter(|&page| fields.slot_of(page).is_none()).collect();
    let pages = if hand.has(NoSlot) || draft.random.one_in(2) { outside } else { metadata };
    let any = draft.random.below(fields.end);
    draft.random.pick_any(&pages).unwrap_or(any)
}

/// What an accepted call left is worked on a little.
fn go_on(draft: &mut Draft) {
    for _ in 0..draft.random.below(3) {
        let end = draft.fields().end;
        let page = draft.random.below(end);
        let line = match draft.random.below(4) {
            0 => format!("read {page} 0 8"),
            1 => format!("write {page} 0 0102"),
            _ => "close".to_string(),
        };
        draft.call(line);
    }
}
