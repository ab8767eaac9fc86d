//! The settings of a recording: their limits, and the sizes that follow from them.
//!
//! Everything that needs a length or a number of rows asks here, so that the recorder, the side
//! file and the desk cannot disagree about one. The size functions answer for any numbers (they
//! stop at the largest usize instead of wrapping); their answers mean something only for settings
//! within the limits.

use crate::ledger::{ENTRY_ROW, PLACE_ROW};
use crate::sidefile::{ENTRY_LENGTH, HEADER_LENGTH};

/// P, S, L and E of document 01.
#[repr(C)]
#[derive(Clone, Copy, PartialEq, Eq, Debug, Default)]
pub struct Settings {
    /// P, bytes of a page.
    pub page_size: u32,
    /// S, slots of the page buffer.
    pub slots: u32,
    /// L, maximum lag in ticks.
    pub lag: u32,
    /// E, pages the base can have.
    pub capacity: u32,
}

impl Settings {
    pub const PAGE_SIZES: [u32; 4] = [512, 1024, 2048, 4096];
    pub const MIN_SLOTS: u32 = 1;
    pub const MAX_SLOTS: u32 = 16;
    pub const MIN_LAG: u32 = 3;
    pub const MAX_LAG: u32 = 8;
    pub const MIN_CAPACITY: u32 = 1;
    pub const MAX_CAPACITY: u32 = 65_535;
    /// The most index entries any settings within the limits ask for.
    pub const MAX_ENTRIES: usize = (Self::MAX_LAG as usize + 1) * Self::MAX_SLOTS as usize;
    /// The most image places any settings within the limits ask for.
    pub const MAX_PLACES: usize = (2 * Self::MAX_LAG as usize + 1) * Self::MAX_SLOTS as usize;

    pub(crate) fn within_limits(&self) -> bool {
        Self::PAGE_SIZES.contains(&self.page_size)
            && (Self::MIN_SLOTS..=Self::MAX_SLOTS).contains(&self.slots)
            && (Self::MIN_LAG..=Self::MAX_LAG).contains(&self.lag)
            && (Self::MIN_CAPACITY..=Self::MAX_CAPACITY).contains(&self.capacity)
    }

    /// P as a length.
    pub(crate) fn page_length(&self) -> usize {
        self.page_size as usize
    }
}

/// X, the entries an index has room for.
pub fn index_entries(s: Settings) -> usize {
    (s.lag as usize)
        .saturating_add(1)
        .saturating_mul(s.slots as usize)
}

/// M, the image places of a side file.
pub fn image_places(s: Settings) -> usize {
    (s.lag as usize)
        .saturating_mul(2)
        .saturating_add(1)
        .saturating_mul(s.slots as usize)
}

/// Bytes of header and index, which is what a desk holds.
pub fn held_length(s: Settings) -> usize {
    index_entries(s)
        .saturating_mul(ENTRY_LENGTH)
        .saturating_add(HEADER_LENGTH)
}

/// Where image place 0 begins: the end of the index, rounded up to whole pages.
pub(crate) fn images_start(s: Settings) -> usize {
    let page = s.page_length().max(1);
    held_length(s).div_ceil(page).saturating_mul(page)
}

/// Where an image place begins in the side file.
pub(crate) fn image_start(s: Settings, place: usize) -> usize {
    place
        .saturating_mul(s.page_length())
        .saturating_add(images_start(s))
}

/// Bytes of a side file up to the end of its last image place.
pub fn side_length(s: Settings) -> usize {
    image_start(s, image_places(s))
}

/// Bytes of the ledger: the entry rows, then the place rows.
pub fn ledger_length(s: Settings) -> usize {
    let entries = index_entries(s).saturating_mul(ENTRY_ROW);
    let places = image_places(s).saturating_mul(PLACE_ROW);
    entries.saturating_add(places)
}
