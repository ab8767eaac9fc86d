//! The proved recorder's calls, over the slices as `plain` has them: a measurement is then written alike for both.

use plain::Lent;
use proved::{Answer, Counts, Settings, Slots, State};

pub fn settings(of: plain::Settings) -> Settings {
    Settings { size: of.page_size, slots: of.slots, lag: of.lag, capacity: of.capacity }
}

pub fn state(of: plain::State) -> State {
    let plain::Slots { pages, changed, order, used } = of.slots;
    State {
        settings: settings(of.settings),
        end: of.end,
        closed: of.closed,
        entries: of.entries,
        slots: Slots { pages, changed, order, used },
        meta: Counts::default(),
        raw: Counts::default(),
    }
}

pub fn open(settings: Settings, end: u32, tick: u32, lent: &mut Lent) -> Answer {
    proved::open(settings, end, tick, lent.ledger, lent.base, lent.side, lent.pages, lent.kinds)
}

pub fn read(state: State, lent: &mut Lent, page: u32, offset: u32, into: &mut [u8]) -> Answer {
    proved::read(state, lent.ledger, lent.base, lent.side, lent.pages, lent.kinds, page, offset, into)
}

pub fn write(state: State, lent: &mut Lent, page: u32, offset: u32, from: &[u8]) -> Answer {
    proved::write(state, lent.ledger, lent.base, lent.side, lent.pages, lent.kinds, page, offset, from)
}

pub fn grow(state: State, lent: &mut Lent, kind: u32) -> Answer {
    proved::grow(state, lent.ledger, lent.base, lent.side, lent.pages, lent.kinds, kind)
}

pub fn close(state: State, lent: &mut Lent) -> Answer {
    proved::close(state, lent.ledger, lent.base, lent.side, lent.pages, lent.kinds)
}
