//! The refusal numbers of document 01's table, named once. Inside the crate a refusal is the `Err`
//! of a result.

pub(crate) const ACCEPTED: u32 = 0;
pub(crate) const SETTINGS: u32 = 1;
pub(crate) const SHORT: u32 = 2;
pub(crate) const STATE: u32 = 3;
pub(crate) const PAGE: u32 = 4;
pub(crate) const KIND: u32 = 5;
pub(crate) const SPAN: u32 = 6;
pub(crate) const NO_SLOT: u32 = 7;
pub(crate) const FULL: u32 = 8;
pub(crate) const LAST_TICK: u32 = 9;
pub(crate) const NO_PLACE: u32 = 10;
pub(crate) const FORM: u32 = 11;
pub(crate) const DAMAGE: u32 = 12;
pub(crate) const LAG: u32 = 13;
pub(crate) const IMAGE: u32 = 14;
