//! What a side file or a held buffer says, for programs that show it: the numbers of the header, and
//! the entries of the index one by one (document 01, "The side file").
//!
//! Both begin alike, so both are read here. The header is judged by the tests of 11 and 12, with
//! room for the index that it names in place of the whole file's length; the index is not judged.

use crate::refusal::{ACCEPTED, DAMAGE, FORM};
use crate::rows;
use crate::settings::{held_length, Settings};
use crate::sidefile::{self, Header};

/// Accepted: 0 and what the header says, with the largest capacity, since the file names none.
/// Refused: the number and zeros.
#[derive(Clone, Copy, PartialEq, Eq, Debug, Default)]
pub struct Told {
    pub number: u32,
    pub tick: u32,
    pub end: u32,
    pub entries: u32,
    pub settings: Settings,
}

/// 1 and an entry of the index, or zeros.
#[derive(Clone, Copy, PartialEq, Eq, Debug, Default)]
pub struct EntryTold {
    pub found: u32,
    pub page: u32,
    pub place: u32,
    pub changed: u32,
    pub sum: u32,
}

fn judged(front: &[u8]) -> Result<Header, u32> {
    if !sidefile::has_form(front) {
        return Err(FORM);
    }
    let header = sidefile::header(front).ok_or(DAMAGE)?;
    if front.len() < held_length(header.settings) {
        return Err(DAMAGE);
    }
    Ok(header)
}

/// What the header says.
pub fn header_told(front: &[u8]) -> Told {
    match judged(front) {
        Ok(header) => Told {
            number: ACCEPTED,
            tick: header.closed,
            end: header.end,
            entries: header.entries,
            settings: header.settings,
        },
        Err(number) => Told {
            number,
            ..Told::default()
        },
    }
}

/// Entry i of the index, of as many as the header counts.
pub fn entry_told(front: &[u8], i: u32) -> EntryTold {
    let Ok(header) = judged(front) else {
        return EntryTold::default();
    };
    let (index, _) = sidefile::index(&header, front);
    match index.get(i as usize) {
        Some(row) => EntryTold {
            found: 1,
            page: rows::page(row),
            place: rows::place(row),
            changed: rows::last_change(row),
            sum: rows::checksum(row),
        },
        None => EntryTold::default(),
    }
}
