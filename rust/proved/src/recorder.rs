//! The recorder's calls, over structs of the library's own layout. A slice that a call only reads is lent to it as such.
#![allow(clippy::too_many_arguments)]

/// P, S, L and E.
#[repr(C)]
#[derive(Clone, Copy, PartialEq, Eq, Debug, Default)]
pub struct Settings {
    pub size: u32,
    pub slots: u32,
    pub lag: u32,
    pub capacity: u32,
}

#[repr(C)]
#[derive(Clone, Copy, PartialEq, Eq, Debug, Default)]
pub struct Counts {
    pub accesses: u32,
    pub hits: u32,
    pub misses: u32,
    pub evictions: u32,
    pub bypasses: u32,
}

#[repr(C)]
#[derive(Clone, Copy, PartialEq, Eq, Debug, Default)]
pub struct Slots {
    pub pages: [u32; 16],
    pub changed: [u8; 16],
    pub order: [u32; 16],
    pub used: u32,
}

#[repr(C)]
#[derive(Clone, Copy, PartialEq, Eq, Debug, Default)]
pub struct State {
    pub settings: Settings,
    pub end: u32,
    pub closed: u32,
    pub entries: u32,
    pub slots: Slots,
    pub meta: Counts,
    pub raw: Counts,
}

/// 0 and the state from now on, or a number of refusal and the state as it was given (of open: all zero).
#[repr(C)]
#[derive(Clone, Copy, PartialEq, Eq, Debug, Default)]
pub struct Answer {
    pub number: u32,
    pub state: State,
}

extern "C" {
    fn ungletice_recorder_open(
        settings: Settings,
        end: u32,
        tick: u32,
        ledger: *mut u8,
        ledger_length: usize,
        base: *const u8,
        base_length: usize,
        side: *mut u8,
        side_length: usize,
        buffer: *const u8,
        buffer_length: usize,
        kinds: *const u8,
        kinds_length: usize,
    ) -> Answer;
    fn ungletice_recorder_read(
        state: State,
        ledger: *const u8,
        ledger_length: usize,
        base: *const u8,
        base_length: usize,
        side: *const u8,
        side_length: usize,
        buffer: *mut u8,
        buffer_length: usize,
        kinds: *const u8,
        kinds_length: usize,
        page: u32,
        offset: u32,
        into: *mut u8,
        into_length: usize,
    ) -> Answer;
    fn ungletice_recorder_write(
        state: State,
        ledger: *const u8,
        ledger_length: usize,
        base: *mut u8,
        base_length: usize,
        side: *const u8,
        side_length: usize,
        buffer: *mut u8,
        buffer_length: usize,
        kinds: *const u8,
        kinds_length: usize,
        page: u32,
        offset: u32,
        bytes: *const u8,
        bytes_length: usize,
    ) -> Answer;
    fn ungletice_recorder_grow(
        state: State,
        ledger: *const u8,
        ledger_length: usize,
        base: *mut u8,
        base_length: usize,
        side: *const u8,
        side_length: usize,
        buffer: *mut u8,
        buffer_length: usize,
        kinds: *mut u8,
        kinds_length: usize,
        kind: u32,
    ) -> Answer;
    fn ungletice_recorder_close(
        state: State,
        ledger: *mut u8,
        ledger_length: usize,
        base: *mut u8,
        base_length: usize,
        side: *mut u8,
        side_length: usize,
        buffer: *const u8,
        buffer_length: usize,
        kinds: *const u8,
        kinds_length: usize,
    ) -> Answer;
    fn ungletice_ledger_length(settings: Settings) -> usize;
    fn ungletice_base_length(settings: Settings) -> usize;
    fn ungletice_side_length(settings: Settings) -> usize;
    fn ungletice_buffer_length(settings: Settings) -> usize;
    fn ungletice_held_length(settings: Settings) -> usize;
    fn ungletice_closed_tick(state: State) -> u32;
    fn ungletice_end(state: State) -> u32;
    fn ungletice_entries(state: State) -> u32;
    fn ungletice_settings_of(state: State) -> Settings;
    fn ungletice_metadata_counts(state: State) -> Counts;
    fn ungletice_raw_counts(state: State) -> Counts;
}

/// Starts a recording with `end` pages in the base and `tick` closed.
pub fn open(
    settings: Settings,
    end: u32,
    tick: u32,
    ledger: &mut [u8],
    base: &[u8],
    side: &mut [u8],
    buffer: &[u8],
    kinds: &[u8],
) -> Answer {
    // SAFETY: each slice goes as its pointer and length; Rust's rules keep the written ones apart, and the call keeps none.
    unsafe {
        ungletice_recorder_open(
            settings,
            end,
            tick,
            ledger.as_mut_ptr(),
            ledger.len(),
            base.as_ptr(),
            base.len(),
            side.as_mut_ptr(),
            side.len(),
            buffer.as_ptr(),
            buffer.len(),
            kinds.as_ptr(),
            kinds.len(),
        )
    }
}

/// Copies bytes of a page into `into`.
pub fn read(
    state: State,
    ledger: &[u8],
    base: &[u8],
    side: &[u8],
    buffer: &mut [u8],
    kinds: &[u8],
    page: u32,
    offset: u32,
    into: &mut [u8],
) -> Answer {
    // SAFETY: as for open.
    unsafe {
        ungletice_recorder_read(
            state,
            ledger.as_ptr(),
            ledger.len(),
            base.as_ptr(),
            base.len(),
            side.as_ptr(),
            side.len(),
            buffer.as_mut_ptr(),
            buffer.len(),
            kinds.as_ptr(),
            kinds.len(),
            page,
            offset,
            into.as_mut_ptr(),
            into.len(),
        )
    }
}

/// Lays bytes over a page.
pub fn write(
    state: State,
    ledger: &[u8],
    base: &mut [u8],
    side: &[u8],
    buffer: &mut [u8],
    kinds: &[u8],
    page: u32,
    offset: u32,
    bytes: &[u8],
) -> Answer {
    // SAFETY: as for open.
    unsafe {
        ungletice_recorder_write(
            state,
            ledger.as_ptr(),
            ledger.len(),
            base.as_mut_ptr(),
            base.len(),
            side.as_ptr(),
            side.len(),
            buffer.as_mut_ptr(),
            buffer.len(),
            kinds.as_ptr(),
            kinds.len(),
            page,
            offset,
            bytes.as_ptr(),
            bytes.len(),
        )
    }
}

/// Adds a zero page of the named kind at the end of the file.
pub fn grow(
    state: State,
    ledger: &[u8],
    base: &mut [u8],
    side: &[u8],
    buffer: &mut [u8],
    kinds: &mut [u8],
    kind: u32,
) -> Answer {
    // SAFETY: as for open.
    unsafe {
        ungletice_recorder_grow(
            state,
            ledger.as_ptr(),
            ledger.len(),
            base.as_mut_ptr(),
            base.len(),
            side.as_ptr(),
            side.len(),
            buffer.as_mut_ptr(),
            buffer.len(),
            kinds.as_mut_ptr(),
            kinds.len(),
            kind,
        )
    }
}

/// Ends the open tick.
pub fn close(
    state: State,
    ledger: &mut [u8],
    base: &mut [u8],
    side: &mut [u8],
    buffer: &[u8],
    kinds: &[u8],
) -> Answer {
    // SAFETY: as for open.
    unsafe {
        ungletice_recorder_close(
            state,
            ledger.as_mut_ptr(),
            ledger.len(),
            base.as_mut_ptr(),
            base.len(),
            side.as_mut_ptr(),
            side.len(),
            buffer.as_ptr(),
            buffer.len(),
            kinds.as_ptr(),
            kinds.len(),
        )
    }
}

/// The length of a ledger, 0 for settings outside their limits.
pub fn ledger_length(settings: Settings) -> usize {
    // SAFETY: numbers in, a number out.
    unsafe { ungletice_ledger_length(settings) }
}

/// The length of a base, 0 for settings outside their limits.
pub fn base_length(settings: Settings) -> usize {
    // SAFETY: numbers in, a number out.
    unsafe { ungletice_base_length(settings) }
}

/// The length of a side file, 0 for settings outside their limits.
pub fn side_length(settings: Settings) -> usize {
    // SAFETY: numbers in, a number out.
    unsafe { ungletice_side_length(settings) }
}

/// The length of a page buffer, 0 for settings outside their limits.
pub fn buffer_length(settings: Settings) -> usize {
    // SAFETY: numbers in, a number out.
    unsafe { ungletice_buffer_length(settings) }
}

/// The length of a held buffer, 0 for settings outside their limits.
pub fn held_length(settings: Settings) -> usize {
    // SAFETY: numbers in, a number out.
    unsafe { ungletice_held_length(settings) }
}

/// The closed tick.
pub fn closed_tick(state: State) -> u32 {
    // SAFETY: a struct of numbers in, numbers out.
    unsafe { ungletice_closed_tick(state) }
}

/// e, the pages in the file.
pub fn end(state: State) -> u32 {
    // SAFETY: a struct of numbers in, numbers out.
    unsafe { ungletice_end(state) }
}

/// The entries of the index.
pub fn entries(state: State) -> u32 {
    // SAFETY: a struct of numbers in, numbers out.
    unsafe { ungletice_entries(state) }
}

/// The settings of the open.
pub fn settings_of(state: State) -> Settings {
    // SAFETY: a struct of numbers in, numbers out.
    unsafe { ungletice_settings_of(state) }
}

/// The counts of metadata accesses.
pub fn metadata_counts(state: State) -> Counts {
    // SAFETY: a struct of numbers in, numbers out.
    unsafe { ungletice_metadata_counts(state) }
}

/// The counts of raw accesses.
pub fn raw_counts(state: State) -> Counts {
    // SAFETY: a struct of numbers in, numbers out.
    unsafe { ungletice_raw_counts(state) }
}
