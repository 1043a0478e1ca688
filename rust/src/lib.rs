//! The rules of the tray in plain Rust, written from the requirements alone.
//!
//! The proved library is held against this one: neither was written with an eye on the other, so
//! that a misreading would have to be made twice to go unseen.
//!
//! The rules: [`clock`] and [`data`], [`record`] (one desk), [`table`] (all desks), [`frame`],
//! [`script`].
//! The test tools: [`gen`] (seeded inputs), [`cases`] (stored ones), [`history`] (demand 3 decided on one run), [`ghost`]
//! (where each read came from, and the shortcuts), [`eight`] (eight desks in eight threads).

#![forbid(unsafe_code)]
#![warn(missing_docs)]

pub mod cases;
pub mod clock;
pub mod data;
pub mod eight;
pub mod frame;
pub mod gen;
pub mod ghost;
pub mod history;
pub mod record;
mod rules;
pub mod script;
pub mod table;

pub use clock::Clock;
pub use data::{Cell, Event, Message, Place, Plan, Refusal, Reply, Row, Slot, Tray};
pub use record::Record;
pub use table::Table;

/// The most desks a tray can have.
pub const DESKS: usize = 8;
/// The most cells a tray can have.
pub const CELLS: usize = 32;
