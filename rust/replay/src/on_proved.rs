//! The proved version, through the C boundary. The library's structs are the plain version's by another name.

use crate::version::{
    Answer, Counts, DeskCalls, EntryTold, Found, Lent, RecorderCalls, Settings, Slots, State, Told,
};

pub struct Proved;

impl RecorderCalls for Proved {
    fn open(&self, settings: Settings, end: u32, tick: u32, lent: &mut Lent) -> Answer {
        let Lent { ledger, base, side, pages, kinds } = lent;
        answer_of(proved::open(settings_to(settings), end, tick, ledger, base, side, pages, kinds))
    }

    fn read(
        &self,
        state: State,
        lent: &mut Lent,
        page: u32,
        offset: u32,
        into: &mut [u8],
    ) -> Answer {
        let Lent { ledger, base, side, pages, kinds } = lent;
        let state = state_to(state);
        answer_of(proved::read(state, ledger, base, side, pages, kinds, page, offset, into))
    }

    fn write(&self, state: State, lent: &mut Lent, page: u32, offset: u32, from: &[u8]) -> Answer {
        let Lent { ledger, base, side, pages, kinds } = lent;
        let state = state_to(state);
        answer_of(proved::write(state, ledger, base, side, pages, kinds, page, offset, from))
    }

    fn grow(&self, state: State, lent: &mut Lent, kind: u32) -> Answer {
        let Lent { ledger, base, side, pages, kinds } = lent;
        answer_of(proved::grow(state_to(state), ledger, base, side, pages, kinds, kind))
    }

    fn close(&self, state: State, lent: &mut Lent) -> Answer {
        let Lent { ledger, base, side, pages, kinds } = lent;
        answer_of(proved::close(state_to(state), ledger, base, side, pages, kinds))
    }
}

impl DeskCalls for Proved {
    fn take(&self, side: &[u8], held: &mut [u8]) -> u32 {
        proved::take(side, held)
    }

    fn refresh(&self, side: &[u8], held: &mut [u8], marks: &mut [u8]) -> u32 {
        proved::refresh(side, held, marks)
    }

    /// The bytes are found as a C program finds them: by the slice and the offset that the call answers. The three calls of
    /// document 01 must answer the same.
    fn read<'a>(
        &self,
        side: &'a [u8],
        base: &'a [u8],
        held: &[u8],
        page: u32,
        offset: u32,
        length: u32,
    ) -> Found<'a> {
        let read = proved::read_part(side, base, held, page, offset, length);
        let three = proved::desk_read(side, base, held, page, offset, length);
        assert_eq!(read, three, "a read in one call, and the three, of page {page}");
        let from = if read.source == 1 { side } else { base };
        let span = if read.number == 0 { length as usize } else { 0 };
        Found {
            number: read.number,
            source: read.source,
            offset: read.offset,
            bytes: &from[read.offset..read.offset + span],
        }
    }

    fn header(&self, front: &[u8]) -> Told {
        let proved::Told { number, tick, end, entries, settings } = proved::header_of(front);
        Told { number, tick, end, entries, settings: settings_of(settings) }
    }

    fn entry(&self, front: &[u8], i: u32) -> EntryTold {
        let proved::EntryTold { found, page, place, changed, sum } = proved::entry_of(front, i);
        EntryTold { found, page, place, changed, sum }
    }
}

fn settings_to(settings: Settings) -> proved::Settings {
    let Settings { page_size, slots, lag, capacity } = settings;
    proved::Settings { size: page_size, slots, lag, capacity }
}

fn settings_of(settings: proved::Settings) -> Settings {
    let proved::Settings { size, slots, lag, capacity } = settings;
    Settings { page_size: size, slots, lag, capacity }
}

fn slots_to(slots: Slots) -> proved::Slots {
    let Slots { pages, changed, order, used } = slots;
    proved::Slots { pages, changed, order, used }
}

fn slots_of(slots: proved::Slots) -> Slots {
    let proved::Slots { pages, changed, order, used } = slots;
    Slots { pages, changed, order, used }
}

fn counts_to(counts: Counts) -> proved::Counts {
    let Counts { accesses, hits, misses, evictions, bypasses } = counts;
    proved::Counts { accesses, hits, misses, evictions, bypasses }
}

fn counts_of(counts: proved::Counts) -> Counts {
    let proved::Counts { accesses, hits, misses, evictions, bypasses } = counts;
    Counts { accesses, hits, misses, evictions, bypasses }
}

fn state_to(state: State) -> proved::State {
    let State { settings, end, closed, entries, slots, meta, raw } = state;
    proved::State {
        settings: settings_to(settings),
        end,
        closed,
        entries,
        slots: slots_to(slots),
        meta: counts_to(meta),
        raw: counts_to(raw),
    }
}

fn answer_of(answer: proved::Answer) -> Answer {
    let proved::State { settings, end, closed, entries, slots, meta, raw } = answer.state;
    let state = State {
        settings: settings_of(settings),
        end,
        closed,
        entries,
        slots: slots_of(slots),
        meta: counts_of(meta),
        raw: counts_of(raw),
    };
    Answer { number: answer.number, state }
}
