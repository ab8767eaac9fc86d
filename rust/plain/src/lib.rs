//! The storage layer of a recorder and its desk, written a second time in plain safe Rust.
//!
//! The recorder keeps metadata pages of a base file in a few slots, holds changes back from the
//! base for the maximum lag, and publishes them tick by tick in a side file. A desk reads both
//! files and sees the pages as they were at the tick it took. Rules, byte layouts, refusal numbers
//! and the orders of tests are those of document 01.
//!
//! This version shares no code with the proved one and serves as the yardstick for that one's bytes
//! and speed. It allocates nothing, and every public function answers for every input: states may
//! be forged, files damaged and slices short.

#![forbid(unsafe_code)]

mod bytes;
mod call;
mod close;
mod counts;
mod desk;
mod ledger;
mod lookup3;
mod recorder;
mod refusal;
mod rows;
mod settings;
mod sidefile;
mod slots;
mod span;
mod state;
mod told;

pub use call::{Answer, Lent};
pub use close::close;
pub use counts::Counts;
pub use desk::{desk_read, refresh, take, Found};
pub use lookup3::hashlittle;
pub use recorder::{grow, open, read, write};
pub use settings::{
    held_length, image_places, index_entries, ledger_length, side_length, Settings,
};
pub use slots::{Slots, EMPTY};
pub use state::State;
pub use told::{entry_told, header_told, EntryTold, Told};
