//! The tests of the layer, one module for each subject. `support` holds the bench they work on,
//! `model` a recorder written from the definitions with maps and lists, which random recordings are
//! compared with.

mod model;
mod support;

mod closes;
mod demands;
mod desk;
mod desk_refusals;
mod example;
mod forged;
mod layout;
mod lookup3;
mod recorder_refusals;
mod recordings;
mod rows;
mod sizes;
mod slots;
mod state_rules;
mod told;
