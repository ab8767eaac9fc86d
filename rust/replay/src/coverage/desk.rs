//! What a desk takes, marks and reads, and how far its tick may stand from the recorder's.

use plain::hashlittle;

use super::{Step, Tally};
use crate::judge::{faults, Cause, Extent};
use crate::run::Handed;
use crate::script::Call;
use crate::sidefile::{rows, Header, Row};

const TAKE_EMPTY: &str = "a take of an empty index";
const TAKE_SOME: &str = "a take of entries";
const TAKE_FULL: &str = "a take of X entries";
const TAKE_MOST: &str = "a take of 144 entries, the most there are";
const TAKE_LAST_END: &str = "take 0: e = 65535";
const REFRESH_LAST_END: &str = "refresh 2: e = 65535";
const HELD_LAST_END: &str = "deskread 2: held e = 65535";
const MARKED: &str = "a refresh marks a page";
const SAME_PLACE: &str = "a refresh marks a page whose page and place are as held";
const NEXT_TICK: &str = "a refresh marks a page changed one tick after the held one";
const SAME_TICK: &str = "a refresh leaves a page changed at the held tick unmarked";
const NO_ENTRY: &str = "a refresh leaves a page without an entry unmarked";
const LEFT: &str = "a refresh to an index that a held entry has left";
const LARGER: &str = "a refresh to a larger e";
const SMALLER: &str = "a refresh to a smaller e";
const NO_PAGES: &str = "a refresh to e = 0";
const FROM_BASE: &str = "a desk read from the base";
const FROM_SIDE: &str = "a desk read from the side file";
const BEFORE_ENTRY: &str =
    "a desk read from the base while the side file has an entry for the page";
const BEFORE_CHANGE: &str = "a desk read of an image while the side file has a later one";
const AFTER_LEAVING: &str = "a desk read of an image whose entry has left the side file";
const OF_RAW: &str = "a desk read of a raw page";
const DAMAGED_INDEX: &str = "a desk read while the side file's index is damaged";
const OTHER_IMAGE: &str = "a desk read while another page's image is damaged";

const NAMES: [&str; 24] = [
    TAKE_EMPTY,
    TAKE_SOME,
    TAKE_FULL,
    TAKE_MOST,
    TAKE_LAST_END,
    REFRESH_LAST_END,
    HELD_LAST_END,
    MARKED,
    SAME_PLACE,
    NEXT_TICK,
    SAME_TICK,
    NO_ENTRY,
    LEFT,
    LARGER,
    SMALLER,
    NO_PAGES,
    FROM_BASE,
    FROM_SIDE,
    BEFORE_ENTRY,
    BEFORE_CHANGE,
    AFTER_LEAVING,
    OF_RAW,
    DAMAGED_INDEX,
    OTHER_IMAGE,
];

/// The largest e that a header may name.
const LAST_END: u32 = 65_535;

/// The side file's tick as seen from the held one, with the answer it allows.
const TICKS: [(&str, u32); 5] = [
    ("at the held tick", 0),
    ("L ticks after the held one", 0),
    ("L + 1 ticks after the held one", 13),
    ("one tick before the held one", 13),
    ("L ticks after the held one, past 4294967295 - L", 0),
];

pub fn names() -> Vec<String> {
    let mut names: Vec<String> = NAMES.map(String::from).to_vec();
    for word in ["refresh", "deskread"] {
        names.extend(TICKS.map(|(tick, number)| tick_name(word, number, tick)));
    }
    names
}

fn tick_name(word: &str, number: u32, tick: &str) -> String {
    format!("{word} {number}: {tick}")
}

pub fn observe(step: &Step, tally: &mut Tally) {
    let (Some(new), old) = (step.side_header(), step.held_header()) else {
        return;
    };
    match (step.call, old) {
        (Call::Take, _) if step.accepted() => observe_take(&new, tally),
        (Call::Refresh, Some(old)) => {
            tally.hit_if(step.refused_only(Cause::Short) && new.end == LAST_END, REFRESH_LAST_END);
            observe_ticks(step, &new, &old, tally);
            if step.accepted() {
                observe_refresh(step, &new, &old, tally);
            }
        }
        (Call::DeskRead { page, .. }, Some(old)) => {
            tally.hit_if(step.refused_only(Cause::Short) && old.end == LAST_END, HELD_LAST_END);
            observe_ticks(step, &new, &old, tally);
            if step.accepted() {
                observe_read(step, &new, &old, *page, tally);
            }
        }
        _ => {}
    }
}

fn observe_take(new: &Header, tally: &mut Tally) {
    tally.hit(if new.count == 0 { TAKE_EMPTY } else { TAKE_SOME });
    tally.hit_if(u64::from(new.count) == new.layout().index_entries(), TAKE_FULL);
    tally.hit_if(new.count == 144, TAKE_MOST);
    tally.hit_if(new.end == LAST_END, TAKE_LAST_END);
}

fn observe_ticks(step: &Step, new: &Header, old: &Header, tally: &mut Tally) {
    if !step.accepted() && !step.refused_only(Cause::Lag) {
        return;
    }
    let (side, held, lag) = (u64::from(new.closed), u64::from(old.closed), u64::from(old.lag));
    let reached = [
        side == held,
        side == held + lag,
        side == held + lag + 1,
        side + 1 == held,
        side == held + lag && side > u64::from(u32::MAX) - lag,
    ];
    for ((tick, _), _) in TICKS.into_iter().zip(reached).filter(|&(_, reached)| reached) {
        tally.hit(tick_name(step.word(), step.number(), tick));
    }
}

fn find(rows: &[Row], page: u32) -> Option<&Row> {
    rows.iter().find(|row| row.page == page)
}

fn observe_refresh(step: &Step, new: &Header, old: &Header, tally: &mut Tally) {
    let before = rows(step.before.buffers.held.lent(), old.count);
    let after = rows(step.after.buffers.held.lent(), new.count);
    for (page, &mark) in (0..new.end).zip(step.after.buffers.marks.lent()) {
        let Some(row) = find(&after, page) else {
            tally.hit_if(mark == 0, NO_ENTRY);
            continue;
        };
        tally.hit_if(mark == 1, MARKED);
        let held_place = find(&before, page).map(|row| row.place);
        tally.hit_if(mark == 1 && held_place == Some(row.place), SAME_PLACE);
        tally.hit_if(
            mark == 1 && u64::from(row.last_change) == u64::from(old.closed) + 1,
            NEXT_TICK,
        );
        tally.hit_if(mark == 0 && row.last_change == old.closed, SAME_TICK);
    }
    tally.hit_if(before.iter().any(|row| find(&after, row.page).is_none()), LEFT);
    tally.hit_if(new.end > old.end, LARGER);
    tally.hit_if(new.end < old.end, SMALLER);
    tally.hit_if(new.end == 0, NO_PAGES);
}

fn observe_read(step: &Step, new: &Header, old: &Header, page: u32, tally: &mut Tally) {
    let Handed::Found { source, .. } = step.reply.handed else {
        return;
    };
    let side = step.before.buffers.side.lent();
    let held = rows(step.before.buffers.held.lent(), old.count);
    let current = rows(side, new.count);
    match (source, find(&held, page), find(&current, page)) {
        (0, _, newer) => {
            tally.hit(FROM_BASE);
            tally.hit_if(newer.is_some(), BEFORE_ENTRY);
        }
        (_, Some(image), newer) => {
            tally.hit(FROM_SIDE);
            tally.hit_if(
                newer.is_some_and(|newer| newer.last_change > image.last_change),
                BEFORE_CHANGE,
            );
            tally.hit_if(newer.is_none(), AFTER_LEAVING);
        }
        _ => {}
    }
    tally.hit_if(step.before.buffers.kinds.whole().get(page as usize) == Some(&1), OF_RAW);
    tally.hit_if(!faults(side, Extent::Whole).is_empty(), DAMAGED_INDEX);
    let bad_image = |row: &&Row| row.page != page && is_bad(side, old, row);
    tally.hit_if(held.iter().any(|row| bad_image(&row)), OTHER_IMAGE);
}

fn is_bad(side: &[u8], held: &Header, row: &Row) -> bool {
    let start = held.layout().image_offset(u64::from(row.place)) as usize;
    hashlittle(&side[start..start + held.page_size as usize], 0) != row.checksum
}
