//! The bus of demand 3, and runs to put on it.
//!
//! It is written from the section of document 01 on that bus and, for the length of a frame, from
//! request L2 alone, and knows no sums: [`Bus::sent`] says when each frame of a run is wholly sent,
//! [`Bus::breach`] whether the run keeps to the licences, and [`run`] makes up runs that do. All
//! times are whole bit times.

mod frames;
mod habit;
mod legal;
mod runs;
mod wire;

pub use frames::{Bus, Frame, Row};
pub use legal::Breach;
pub use runs::{run, Shape};
