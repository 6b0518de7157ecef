//! The order office's side of the pipe sizing library.
//!
//! - [`flow`], [`duty`], [`meter`], [`rate`], [`losses()`], [`heads`], [`choose`], [`heat`] and [`copy`] call the proved library and give
//!   typed results or a [`Refusal`].
//! - `ffi` has the same calls on lent buffers, and the only unsafe code.
//! - `model` is document 01 once more, written independently; [`soak`] and [`replay`] compare the two.
//! - [`bench()`] times the library against the model and against `rivals`, searches in safe Rust.
//! - [`house`], [`table`], [`meters`] and [`losses`](mod@losses) are the readable files, [`answer`] takes losses that the command has
//!   printed, [`places`] says where a refusal lies, [`taps`] what sets a flow, [`walk`] goes from a section to the pump, [`draw`] draws a
//!   house; the command `office` puts them before people.

#![deny(unsafe_code)]

mod bench;
pub mod calls;
pub mod case;
pub mod compare;
pub mod ffi;
pub mod generate;
pub mod model;
pub mod refusal;
pub mod rivals;
pub mod situations;

pub use bench::bench;
pub use calls::{
    Choice, Flow, Heads, Heat, Metered, Rated, Rating, SectionLoss, choose, copy, duty, flow, heads, heat, losses,
    meter, rate,
};
pub use compare::{Mismatch, replay, soak};
pub use refusal::Refusal;
pub use situations::Counters;

// What people touch: readable files, the places of refusals, drawings.
pub mod answer;
pub mod at;
pub mod catalogue;
mod cells;
mod commas;
pub mod draw;
pub mod echo;
mod header;
pub mod house;
pub mod kinds;
mod line;
pub mod loss;
pub mod losses;
pub mod measure;
pub mod meter;
pub mod meters;
pub mod mistake;
mod numbered;
pub mod pipes;
pub mod places;
pub mod readable;
pub mod record;
pub mod service;
pub mod table;
pub mod taps;
pub mod walk;
pub mod warnings;
pub mod which;
