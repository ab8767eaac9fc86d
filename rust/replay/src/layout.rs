//! The limits of the settings and the lengths that follow from them.

use std::ops::RangeInclusive;

pub const PAGE_SIZES: [u64; 4] = [512, 1024, 2048, 4096];
pub const SLOT_COUNTS: RangeInclusive<u64> = 1..=16;
pub const LAGS: RangeInclusive<u64> = 3..=8;
pub const CAPACITIES: RangeInclusive<u64> = 1..=65_535;
pub const LAST_TICK: u64 = u32::MAX as u64;
pub const LAST_COUNT: u64 = u32::MAX as u64;

pub const HEADER: u64 = 36;
pub const ROW: u64 = 16;

/// P, S and L: what decides the layout of a side file. Sums stop instead of wrapping, as forged
/// settings come by.
#[derive(Clone, Copy, Debug, PartialEq, Eq)]
pub struct Layout {
    pub page_size: u64,
    pub slot_count: u64,
    pub lag: u64,
}

impl Layout {
    pub fn is_within_limits(self) -> bool {
        PAGE_SIZES.contains(&self.page_size)
            && SLOT_COUNTS.contains(&self.slot_count)
            && LAGS.contains(&self.lag)
    }

    /// X, the entries an index has room for.
    pub fn index_entries(self) -> u64 {
        self.lag.saturating_add(1).saturating_mul(self.slot_count)
    }

    /// M, the image places of the side file.
    pub fn image_places(self) -> u64 {
        self.lag.saturating_mul(2).saturating_add(1).saturating_mul(self.slot_count)
    }

    /// The length of header and index.
    pub fn held_length(self) -> u64 {
        self.index_entries().saturating_mul(ROW).saturating_add(HEADER)
    }

    /// Where an image place begins; place M is where the side file ends.
    pub fn image_offset(self, place: u64) -> u64 {
        let page_size = self.page_size.max(1);
        let start = self.held_length().div_ceil(page_size);
        start.saturating_add(place).saturating_mul(page_size)
    }

    pub fn side_length(self) -> u64 {
        self.image_offset(self.image_places())
    }

    pub fn pages_length(self) -> u64 {
        self.slot_count.saturating_mul(self.page_size)
    }
}

#[cfg(test)]
mod tests {
    use super::Layout;

    #[test]
    fn by_hand() {
        let layout = Layout { page_size: 512, slot_count: 2, lag: 3 };
        assert_eq!(layout.index_entries(), 8);
        assert_eq!(layout.image_places(), 14);
        assert_eq!(layout.held_length(), 164);
        assert_eq!(layout.image_offset(0), 512);
        assert_eq!(layout.side_length(), 512 + 14 * 512);
        let largest = Layout { page_size: 4096, slot_count: 16, lag: 8 };
        assert_eq!(largest.held_length(), 36 + 16 * 144);
        assert_eq!(largest.side_length(), 4096 + 272 * 4096);
        // 36 + 16 * 144 = 2340 fills two pages of 2048
        assert_eq!(Layout { page_size: 2048, ..largest }.image_offset(1), 3 * 2048);
    }
}
