//! The desk's calls, and what a side file or a held buffer says.

use crate::Settings;

/// What a desk read answers in one call: the number, the slice (0 base, 1 side) and the offset in it.
#[repr(C)]
#[derive(Clone, Copy, PartialEq, Eq, Debug, Default)]
pub struct Part {
    pub number: u32,
    pub source: u32,
    pub offset: usize,
}

/// What a header says, or 11 or 12 and zeros.
#[repr(C)]
#[derive(Clone, Copy, PartialEq, Eq, Debug, Default)]
pub struct Told {
    pub number: u32,
    pub tick: u32,
    pub end: u32,
    pub entries: u32,
    pub settings: Settings,
}

/// An entry of the index; zeros where there is none.
#[repr(C)]
#[derive(Clone, Copy, PartialEq, Eq, Debug, Default)]
pub struct EntryTold {
    pub found: u32,
    pub page: u32,
    pub place: u32,
    pub changed: u32,
    pub sum: u32,
}

extern "C" {
    fn ungletice_take(
        side: *const u8,
        side_length: usize,
        held: *mut u8,
        held_length: usize,
    ) -> u32;
    fn ungletice_refresh(
        side: *const u8,
        side_length: usize,
        held: *mut u8,
        held_length: usize,
        marks: *mut u8,
        marks_length: usize,
    ) -> u32;
    fn ungletice_read(
        side: *const u8,
        side_length: usize,
        base: *const u8,
        base_length: usize,
        held: *const u8,
        held_length: usize,
        page: u32,
        offset: u32,
        length: u32,
    ) -> u32;
    fn ungletice_read_source(
        side: *const u8,
        side_length: usize,
        base: *const u8,
        base_length: usize,
        held: *const u8,
        held_length: usize,
        page: u32,
        offset: u32,
        length: u32,
    ) -> u32;
    fn ungletice_read_offset(
        side: *const u8,
        side_length: usize,
        base: *const u8,
        base_length: usize,
        held: *const u8,
        held_length: usize,
        page: u32,
        offset: u32,
        length: u32,
    ) -> usize;
    fn ungletice_read_part(
        side: *const u8,
        side_length: usize,
        base: *const u8,
        base_length: usize,
        held: *const u8,
        held_length: usize,
        page: u32,
        offset: u32,
        length: u32,
    ) -> Part;
    fn ungletice_header_of(front: *const u8, front_length: usize) -> Told;
    fn ungletice_entry_of(front: *const u8, front_length: usize, i: u32) -> EntryTold;
}

/// Takes header and index of a side file into the held buffer.
pub fn take(side: &[u8], held: &mut [u8]) -> u32 {
    // SAFETY: each slice goes as its pointer and length; Rust's rules keep them apart, and the call keeps none.
    unsafe { ungletice_take(side.as_ptr(), side.len(), held.as_mut_ptr(), held.len()) }
}

/// Takes them anew, and marks the pages that changed after the held tick.
pub fn refresh(side: &[u8], held: &mut [u8], marks: &mut [u8]) -> u32 {
    // SAFETY: as for take.
    unsafe {
        ungletice_refresh(
            side.as_ptr(),
            side.len(),
            held.as_mut_ptr(),
            held.len(),
            marks.as_mut_ptr(),
            marks.len(),
        )
    }
}

/// The read by the three calls of document 01: the number, and the two companions.
pub fn desk_read(
    side: &[u8],
    base: &[u8],
    held: &[u8],
    page: u32,
    offset: u32,
    length: u32,
) -> Part {
    let (s, b, h) = (side.as_ptr(), base.as_ptr(), held.as_ptr());
    let (sl, bl, hl) = (side.len(), base.len(), held.len());
    // SAFETY: the functions read inside the slices and write nothing.
    unsafe {
        Part {
            number: ungletice_read(s, sl, b, bl, h, hl, page, offset, length),
            source: ungletice_read_source(s, sl, b, bl, h, hl, page, offset, length),
            offset: ungletice_read_offset(s, sl, b, bl, h, hl, page, offset, length),
        }
    }
}

/// The same in one call, as a program that shows the page makes it.
pub fn read_part(
    side: &[u8],
    base: &[u8],
    held: &[u8],
    page: u32,
    offset: u32,
    length: u32,
) -> Part {
    // SAFETY: as for desk_read.
    unsafe {
        ungletice_read_part(
            side.as_ptr(),
            side.len(),
            base.as_ptr(),
            base.len(),
            held.as_ptr(),
            held.len(),
            page,
            offset,
            length,
        )
    }
}

/// The header of a side file or a held buffer.
pub fn header_of(front: &[u8]) -> Told {
    // SAFETY: as for desk_read.
    unsafe { ungletice_header_of(front.as_ptr(), front.len()) }
}

/// Entry `i` of its index.
pub fn entry_of(front: &[u8], i: u32) -> EntryTold {
    // SAFETY: as for desk_read.
    unsafe { ungletice_entry_of(front.as_ptr(), front.len(), i) }
}
