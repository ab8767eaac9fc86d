//! Call scripts for the storage layer: read them, play them on a version of the layer, print what
//! every call left behind, make up new ones from a seed, and say which situations a set of them
//! reached.
//!
//! `script` and `state_line` read; `run` plays on a `version`; `output` prints, and `compare` plays on two. `judge` says from
//! document 01 alone why a call must be refused; `coverage` stands on it, and `generate` aims by
//! it.

pub mod buffers;
pub mod command;
pub mod compare;
pub mod coverage;
pub mod crc;
pub mod fields;
mod fronts;
pub mod generate;
pub mod judge;
pub mod layout;
pub mod ledger;
mod on_plain;
mod on_proved;
pub mod output;
pub mod pattern;
pub mod recorder;
pub mod run;
pub mod script;
pub mod sidefile;
pub mod sidelist;
pub mod state_line;
pub mod version;
