//! A version of the layer, as the replay sees it: the calls over numbers, the state struct and lent
//! bytes. The structs are those of `plain`; another version translates to and from them in a file
//! of its own.

use crate::on_plain::Plain;
use crate::on_proved::Proved;

pub use plain::{Answer, Counts, EntryTold, Found, Lent, Settings, Slots, State, Told, EMPTY};

/// The recorder's five calls. Each takes any input and answers; number 0 is accepted.
pub trait RecorderCalls {
    fn open(&self, settings: Settings, end: u32, tick: u32, lent: &mut Lent) -> Answer;
    fn read(
        &self,
        state: State,
        lent: &mut Lent,
        page: u32,
        offset: u32,
        into: &mut [u8],
    ) -> Answer;
    fn write(&self, state: State, lent: &mut Lent, page: u32, offset: u32, from: &[u8]) -> Answer;
    fn grow(&self, state: State, lent: &mut Lent, kind: u32) -> Answer;
    fn close(&self, state: State, lent: &mut Lent) -> Answer;
}

/// The desk's three, likewise, and what it says of a side file or a held buffer.
pub trait DeskCalls {
    fn take(&self, side: &[u8], held: &mut [u8]) -> u32;
    fn refresh(&self, side: &[u8], held: &mut [u8], marks: &mut [u8]) -> u32;
    fn read<'a>(
        &self,
        side: &'a [u8],
        base: &'a [u8],
        held: &[u8],
        page: u32,
        offset: u32,
        length: u32,
    ) -> Found<'a>;
    fn header(&self, front: &[u8]) -> Told;
    fn entry(&self, front: &[u8], i: u32) -> EntryTold;
}

#[derive(Clone, Copy)]
pub struct Version {
    pub recorder: &'static dyn RecorderCalls,
    pub desk: &'static dyn DeskCalls,
}

/// The version that a word after `--on` names; a line that says why there is none.
pub fn named(word: &str) -> Result<Version, String> {
    match word {
        "plain" => Ok(Version { recorder: &Plain, desk: &Plain }),
        "proved" => Ok(Version { recorder: &Proved, desk: &Proved }),
        _ => Err(format!("no version is named '{word}'")),
    }
}
