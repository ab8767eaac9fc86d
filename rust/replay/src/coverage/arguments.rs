//! Page numbers, spans and kinds at their edges.

use super::{Step, Tally};
use crate::judge::Cause;
use crate::script::Call;

const SPANNED: [&str; 3] = ["read", "write", "deskread"];
/// Offset and length as seen from a page of P bytes; what is answered if nothing else is wrong.
const SPANS: [(&str, u32); 8] = [
    ("empty", 6),
    ("the whole page", 0),
    ("the last byte", 0),
    ("one byte past the whole page", 6),
    ("a page's length at offset 1", 6),
    ("one byte at the page's end", 6),
    ("empty at the page's end", 6),
    ("one byte at offset 4294967295", 6),
];
const KINDS: [u32; 3] = [2, 256, 4_294_967_295];

const BAD_LAST_KIND: &str = "open 5: only the last kind byte below e";
const BAD_SPARE_KIND: &str = "open 0: the kind byte at e neither 0 nor 1";

pub fn names() -> Vec<String> {
    let mut names = Vec::new();
    for word in SPANNED {
        names.extend(SPANS.map(|(span, number)| span_name(word, number, span)));
        names.extend([format!("{word} 0: page e - 1"), format!("{word} 4: page e")]);
        names.push(format!("{word} 4: page 4294967295"));
    }
    names.extend(KINDS.map(|kind| format!("grow 5: kind {kind}")));
    names.extend(
        ["grow 0: kind 0", "grow 0: kind 1", BAD_LAST_KIND, BAD_SPARE_KIND].map(String::from),
    );
    names.extend(["read", "write", "grow", "close"].map(bad_kind_elsewhere));
    names
}

fn span_name(word: &str, number: u32, span: &str) -> String {
    format!("{word} {number}: {span}")
}

fn bad_kind_elsewhere(word: &str) -> String {
    format!("{word} 0: a page in no slot and no entry has a kind neither 0 nor 1")
}

pub fn observe(step: &Step, tally: &mut Tally) {
    match step.call {
        Call::Open { end, .. } => observe_open(step, *end as usize, tally),
        Call::Grow { kind } => observe_grow(step, *kind, tally),
        _ => observe_span(step, tally),
    }
    observe_kinds(step, tally);
}

fn observe_open(step: &Step, end: usize, tally: &mut Tally) {
    let kinds = step.before.buffers.kinds.lent();
    let bad = |page: usize| kinds.get(page).is_some_and(|&kind| kind > 1);
    let only_last = end > 0 && bad(end - 1) && !(0..end - 1).any(bad);
    tally.hit_if(step.refused_only(Cause::Kind) && only_last, BAD_LAST_KIND);
    tally.hit_if(step.accepted() && bad(end), BAD_SPARE_KIND);
}

fn observe_grow(step: &Step, kind: u32, tally: &mut Tally) {
    tally.hit_if(step.refused_only(Cause::Kind), format!("grow 5: kind {kind}"));
    tally.hit_if(step.accepted(), format!("grow 0: kind {kind}"));
}

fn observe_span(step: &Step, tally: &mut Tally) {
    let (Some((page, offset, length)), Some((page_size, end))) =
        (step.span(), page_size_and_end(step))
    else {
        return;
    };
    if step.accepted() || step.refused_only(Cause::Span) {
        for span in spans(u64::from(offset), length, page_size) {
            tally.hit(span_name(step.word(), step.number(), span));
        }
    }
    if step.refused_only(Cause::Page) {
        tally.hit_if(u64::from(page) == end, format!("{} 4: page e", step.word()));
        tally.hit_if(page == u32::MAX, format!("{} 4: page 4294967295", step.word()));
    }
    tally.hit_if(
        step.accepted() && u64::from(page) + 1 == end,
        format!("{} 0: page e - 1", step.word()),
    );
}

/// P and e, the recorder's or the held ones.
fn page_size_and_end(step: &Step) -> Option<(u64, u64)> {
    if step.is_of_desk() {
        return step.held_header().map(|held| (u64::from(held.page_size), u64::from(held.end)));
    }
    step.given.as_ref().map(|given| (given.page_size, given.end))
}

fn spans(offset: u64, length: u64, page_size: u64) -> Vec<&'static str> {
    let present = [
        length == 0,
        offset == 0 && length == page_size,
        offset + 1 == page_size && length == 1,
        offset == 0 && length == page_size + 1,
        offset == 1 && length == page_size,
        offset == page_size && length == 1,
        offset == page_size && length == 0,
        offset == u64::from(u32::MAX) && length == 1,
    ];
    SPANS
        .into_iter()
        .zip(present)
        .filter(|&(_, present)| present)
        .map(|((span, _), _)| span)
        .collect()
}

/// Kind bytes below e that nobody asks about are never judged after open.
fn observe_kinds(step: &Step, tally: &mut Tally) {
    if let Some((given, _)) = step.worked() {
        let kinds = step.before.buffers.kinds.lent();
        let below = kinds.len().min(given.end as usize);
        let named = step.span().map(|(page, _, _)| page as usize);
        let elsewhere = (0..below).any(|page| kinds[page] > 1 && Some(page) != named);
        tally.hit_if(elsewhere, bad_kind_elsewhere(step.word()));
    }
}
