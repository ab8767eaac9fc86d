//! A recording as it happens: open, then reads, writes, grows and closes, and a desk that takes,
//! refreshes and reads between them; now and then a call with wrong arguments, and a new open over
//! the old files.

use super::draft::{hex, Draft};
use super::span;
use super::stage::{starting_tick, Stage};
use crate::buffers::Name;
use crate::layout::LAST_TICK;
use crate::sidefile::{rows, Header};

pub fn play(draft: &mut Draft) {
    let stage = Stage::common(&mut draft.random);
    draft.comment("a recording");
    stage.make_buffers(draft);
    let end = match draft.random.below(6) {
        0 => 0,
        1..=3 => stage.capacity,
        _ => draft.random.between(0, stage.capacity),
    };
    spoil_spare_kinds(draft, end, stage.capacity);
    let tick = starting_tick(&mut draft.random);
    draft.call(stage.open_line(end, tick));
    for _ in 0..draft.random.between(30, 90) {
        if draft.is_full() {
            return;
        }
        step(draft, &stage);
    }
}

/// Kind bytes from e on may be anything.
fn spoil_spare_kinds(draft: &mut Draft, end: u64, capacity: u64) {
    for page in end..capacity {
        if draft.random.one_in(2) {
            let kind = draft.random.below(256) as u8;
            draft.poke(Name::Kinds, page as usize, &[kind]);
        }
    }
}

fn step(draft: &mut Draft, stage: &Stage) {
    match draft.random.below(100) {
        0..=24 => write(draft),
        25..=28 => write_equal_bytes(draft),
        29..=46 => read(draft),
        47..=51 => grow(draft),
        52..=65 => close(draft, 1),
        66..=69 => close(draft, stage.layout.lag + 2),
        70..=75 => call(draft, "take"),
        76..=82 => call(draft, "refresh"),
        83..=89 => desk_read(draft),
        90..=93 => wrong_arguments(draft),
        94..=95 => reopen(draft, stage),
        96..=97 => follow(draft, stage),
        _ => change_in_the_same_place(draft, stage),
    }
}

/// A page of the file, one of the first often.
fn page(draft: &mut Draft) -> u64 {
    let end = draft.fields().end;
    let hot = if draft.random.one_in(2) { end.min(3) } else { end };
    draft.random.below(hot)
}

fn span_inside(draft: &mut Draft) -> (u64, u64) {
    let page_size = draft.fields().page_size;
    span::inside(&mut draft.random, page_size)
}

fn write(draft: &mut Draft) {
    let page = page(draft);
    let (offset, length) = span_inside(draft);
    let data = span::data(&mut draft.random, length);
    draft.call(format!("write {page} {offset} {data}"));
}

/// Writes to a page in a slot what stands there.
fn write_equal_bytes(draft: &mut Draft) {
    let fields = draft.fields();
    let occupied: Vec<usize> =
        (0..fields.slots.len()).filter(|&slot| fields.page_in(slot).is_some()).collect();
    if let Some(slot) = draft.random.pick_any(&occupied) {
        let page = fields.page_in(slot).unwrap_or(0);
        let (offset, length) =
            (draft.random.below(fields.page_size - 4), draft.random.between(1, 4));
        let start = slot * fields.page_size as usize + offset as usize;
        let data = hex(&draft.bytes(Name::Pages)[start..start + length as usize]);
        draft.call(format!("write {page} {offset} {data}"));
    }
}

fn read(draft: &mut Draft) {
    let page = page(draft);
    let (offset, length) = span_inside(draft);
    draft.call(format!("read {page} {offset} {length}"));
}

fn grow(draft: &mut Draft) {
    let kind = u64::from(draft.random.one_in(3));
    draft.call(format!("grow {kind}"));
}

fn call(draft: &mut Draft, line: &str) {
    draft.call(line);
}

fn close(draft: &mut Draft, times: u64) {
    for _ in 0..times {
        draft.call("close");
    }
}

fn desk_read(draft: &mut Draft) {
    let held = draft.bytes(Name::Held).to_vec();
    let header = Header::decode(&held);
    let entries: Vec<u32> =
        header.iter().flat_map(|header| rows(&held, header.count)).map(|row| row.page).collect();
    let page = match draft.random.pick_any(&entries) {
        Some(page) if draft.random.one_in(2) => u64::from(page),
        _ => page(draft),
    };
    let (offset, length) = span_inside(draft);
    draft.call(format!("deskread {page} {offset} {length}"));
}

fn wrong_arguments(draft: &mut Draft) {
    let word = *draft.random.pick(&["read", "write", "deskread", "grow"]);
    if word == "grow" {
        let kind = *draft.random.pick(&[2, 3, 255, 256, 65_536, u32::MAX]);
        draft.call(format!("grow {kind}"));
        return;
    }
    let fields = draft.fields();
    let (mut page, mut span) = (page(draft), span_inside(draft));
    if draft.random.one_in(3) {
        page = *draft.random.pick(&[fields.end, fields.end, fields.capacity, u64::from(u32::MAX)]);
    } else {
        span = span::outside(draft, word, fields.page_size);
    }
    let (offset, length) = span;
    let size =
        if word == "write" { span::data(&mut draft.random, length) } else { length.to_string() };
    draft.call(format!("{word} {page} {offset} {size}"));
}

/// A new open over the old files: later, at the same tick or before, at times with fewer pages.
fn reopen(draft: &mut Draft, stage: &Stage) {
    let fields = draft.fields();
    let later = fields.tick.saturating_add(draft.random.below(stage.layout.lag + 3)).min(LAST_TICK);
    let tick = *draft.random.pick(&[0, fields.tick.saturating_sub(1), fields.tick, later, later]);
    let end = if draft.random.one_in(3) { draft.random.between(0, fields.end) } else { fields.end };
    draft.call("take");
    draft.call(stage.open_line(end, tick));
    draft.call("refresh");
}

/// A desk that takes once and reads at each tick until it lags too far behind.
fn follow(draft: &mut Draft, stage: &Stage) {
    write(draft);
    close(draft, 1);
    draft.call("take");
    for _ in 0..stage.layout.lag + 2 {
        desk_read(draft);
        if draft.random.one_in(2) {
            write(draft);
        }
        close(draft, 1);
    }
    desk_read(draft);
    draft.call("refresh");
}

/// The page and its place are as held, and yet it changed: a new open within the lag gives the same
/// place again.
fn change_in_the_same_place(draft: &mut Draft, stage: &Stage) {
    let fields = draft.fields();
    let kinds = draft.bytes(Name::Kinds);
    let metadata: Vec<u64> = (0..fields.end).filter(|&page| kinds[page as usize] == 0).collect();
    let Some(page) = draft.random.pick_any(&metadata).filter(|_| fields.tick < LAST_TICK - 16)
    else {
        return;
    };
    draft.call(stage.open_line(fields.end, fields.tick));
    draft.call(format!("write {page} 0 01"));
    close(draft, 1);
    draft.call("take");
    let later = draft.random.between(1, stage.layout.lag);
    draft.call(stage.open_line(fields.end, fields.tick + later));
    draft.call(format!("write {page} 0 02"));
    close(draft, 1);
    draft.call("refresh");
}
