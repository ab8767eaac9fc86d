//! The counts of accesses (document 01, "Counts"), kept once for metadata and once for raw pages.
//!
//! Each count stops at the largest number, on its own: the others go on.

#[repr(C)]
#[derive(Clone, Copy, PartialEq, Eq, Debug, Default)]
pub struct Counts {
    pub accesses: u32,
    pub hits: u32,
    pub misses: u32,
    pub evictions: u32,
    pub bypasses: u32,
}

impl Counts {
    pub(crate) fn hit(&mut self) {
        self.accesses = self.accesses.saturating_add(1);
        self.hits = self.hits.saturating_add(1);
    }

    pub(crate) fn miss(&mut self) {
        self.accesses = self.accesses.saturating_add(1);
        self.misses = self.misses.saturating_add(1);
    }

    pub(crate) fn eviction(&mut self) {
        self.evictions = self.evictions.saturating_add(1);
    }

    pub(crate) fn bypass(&mut self) {
        self.bypasses = self.bypasses.saturating_add(1);
    }
}
