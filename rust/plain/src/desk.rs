//! The desk's calls: take, refresh and read (document 01, "What the desk does").
//!
//! A desk holds header and index of one tick in bytes of its own, and reads images and base pages
//! in place. It keeps nothing else, so each call judges the held bytes as strictly as a file.

use crate::lookup3::checksum;
use crate::refusal::{ACCEPTED, DAMAGE, FORM, IMAGE, LAG, PAGE, SHORT, STATE};
use crate::rows;
use crate::settings::{held_length, image_start, side_length, Settings};
use crate::sidefile::{self, Header};
use crate::span;

/// A desk read's answer. Accepted: number 0 and the part of the base (source 0) or of the side file
/// (source 1) that begins at `offset` of it. Refused: the number, 0, 0 and the empty part at the
/// start of the base.
#[derive(Clone, Copy, PartialEq, Eq, Debug)]
pub struct Found<'a> {
    pub number: u32,
    pub source: u32,
    pub offset: usize,
    pub bytes: &'a [u8],
}

const FROM_BASE: u32 = 0;
const FROM_SIDE: u32 = 1;

fn number(outcome: Result<(), u32>) -> u32 {
    outcome.err().unwrap_or(ACCEPTED)
}

/// Tests 11 and 12 of a side file but for its index.
fn judge_header(side: &[u8]) -> Result<Header, u32> {
    if !sidefile::has_form(side) {
        return Err(FORM);
    }
    let header = sidefile::header(side).ok_or(DAMAGE)?;
    if side.len() < side_length(header.settings) {
        return Err(DAMAGE);
    }
    Ok(header)
}

/// Tests 11 and 12 of a side file.
fn judge_side(side: &[u8]) -> Result<Header, u32> {
    let header = judge_header(side)?;
    if !sidefile::index_is_sound(&header, side) {
        return Err(DAMAGE);
    }
    Ok(header)
}

/// Test 3 of the desk: the held bytes as a side file without images.
fn judge_held(held: &[u8]) -> Result<Header, u32> {
    if !sidefile::has_form(held) {
        return Err(STATE);
    }
    let header = sidefile::header(held).ok_or(STATE)?;
    if held.len() < held_length(header.settings) || !sidefile::index_is_sound(&header, held) {
        return Err(STATE);
    }
    Ok(header)
}

/// The last part of test 12, then 13: the file fits what is held.
fn judge_step(held: &Header, side: &Header) -> Result<(), u32> {
    if side.settings != held.settings {
        return Err(DAMAGE);
    }
    match side.closed.checked_sub(held.closed) {
        Some(ticks) if ticks <= held.settings.lag => Ok(()),
        _ => Err(LAG),
    }
}

/// Copies the side file's header and index into the held buffer.
pub fn take(side: &[u8], held: &mut [u8]) -> u32 {
    number(try_take(side, held))
}

fn try_take(side: &[u8], held: &mut [u8]) -> Result<(), u32> {
    let header = judge_side(side)?;
    let length = held_length(header.settings);
    if held.len() < length {
        return Err(SHORT);
    }
    held[..length].copy_from_slice(&side[..length]);
    Ok(())
}

/// Takes the new header and index, and marks each page below the new e: 1 if it changed after the
/// tick held until now, else 0.
pub fn refresh(side: &[u8], held: &mut [u8], marks: &mut [u8]) -> u32 {
    number(try_refresh(side, held, marks))
}

fn try_refresh(side: &[u8], held: &mut [u8], marks: &mut [u8]) -> Result<(), u32> {
    let old = judge_held(held)?;
    let new = judge_side(side)?;
    judge_step(&old, &new)?;
    let end = new.end as usize;
    if marks.len() < end {
        return Err(SHORT);
    }
    marks[..end].fill(0);
    let (index, _) = sidefile::index(&new, side);
    for row in index {
        // Neither page nor place tells a change: after a new open a later one can stand in the same
        // place.
        if rows::last_change(row) > old.closed {
            marks[rows::page(row) as usize] = 1;
        }
    }
    let length = held_length(new.settings);
    held[..length].copy_from_slice(&side[..length]);
    Ok(())
}

/// The named part of a page as it was at the held tick, from the image the held index names or else
/// from the base.
pub fn desk_read<'a>(
    side: &'a [u8],
    base: &'a [u8],
    held: &[u8],
    page: u32,
    offset: u32,
    length: u32,
) -> Found<'a> {
    try_read(side, base, held, page, offset, length).unwrap_or_else(|number| Found {
        number,
        source: FROM_BASE,
        offset: 0,
        bytes: &base[..0],
    })
}

fn try_read<'a>(
    side: &'a [u8],
    base: &'a [u8],
    held: &[u8],
    page: u32,
    offset: u32,
    length: u32,
) -> Result<Found<'a>, u32> {
    let old = judge_held(held)?;
    let new = judge_header(side)?;
    judge_step(&old, &new)?;
    let settings = old.settings;
    if base.len() < old.end as usize * settings.page_length() {
        return Err(SHORT);
    }
    if page >= old.end {
        return Err(PAGE);
    }
    let span = span::in_page(settings.page_size, offset, length.into())?;
    let (index, _) = sidefile::index(&old, held);
    match rows::find(index, page) {
        Some(row) => {
            let start = sound_image(settings, side, row)?;
            Ok(part(FROM_SIDE, side, start + span.start, span.len()))
        }
        None => Ok(part(
            FROM_BASE,
            base,
            page as usize * settings.page_length() + span.start,
            span.len(),
        )),
    }
}

/// Where the image of an entry begins, once its checksum is found right.
fn sound_image(settings: Settings, side: &[u8], row: &[u8]) -> Result<usize, u32> {
    let start = image_start(settings, rows::place(row) as usize);
    let image = &side[start..start + settings.page_length()];
    if checksum(image) != rows::checksum(row) {
        return Err(IMAGE);
    }
    Ok(start)
}

fn part(source: u32, of: &[u8], offset: usize, length: usize) -> Found<'_> {
    Found {
        number: ACCEPTED,
        source,
        offset,
        bytes: &of[offset..offset + length],
    }
}
