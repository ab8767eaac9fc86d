//! The version written a second time in plain Rust. Its calls are those of the traits, one to one.

use crate::version::{
    Answer, DeskCalls, EntryTold, Found, Lent, RecorderCalls, Settings, State, Told,
};

pub struct Plain;

impl RecorderCalls for Plain {
    fn open(&self, settings: Settings, end: u32, tick: u32, lent: &mut Lent) -> Answer {
        plain::open(settings, end, tick, lent)
    }

    fn read(
        &self,
        state: State,
        lent: &mut Lent,
        page: u32,
        offset: u32,
        into: &mut [u8],
    ) -> Answer {
        plain::read(state, lent, page, offset, into)
    }

    fn write(&self, state: State, lent: &mut Lent, page: u32, offset: u32, from: &[u8]) -> Answer {
        plain::write(state, lent, page, offset, from)
    }

    fn grow(&self, state: State, lent: &mut Lent, kind: u32) -> Answer {
        plain::grow(state, lent, kind)
    }

    fn close(&self, state: State, lent: &mut Lent) -> Answer {
        plain::close(state, lent)
    }
}

impl DeskCalls for Plain {
    fn take(&self, side: &[u8], held: &mut [u8]) -> u32 {
        plain::take(side, held)
    }

    fn refresh(&self, side: &[u8], held: &mut [u8], marks: &mut [u8]) -> u32 {
        plain::refresh(side, held, marks)
    }

    fn read<'a>(
        &self,
        side: &'a [u8],
        base: &'a [u8],
        held: &[u8],
        page: u32,
        offset: u32,
        length: u32,
    ) -> Found<'a> {
        plain::desk_read(side, base, held, page, offset, length)
    }

    fn header(&self, front: &[u8]) -> Told {
        plain::header_told(front)
    }

    fn entry(&self, front: &[u8], i: u32) -> EntryTold {
        plain::entry_told(front, i)
    }
}
