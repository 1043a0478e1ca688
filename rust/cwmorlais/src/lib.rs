//! Up to eight desks georeference one tray of sheets together, and **a desk that sees new
//! coordinates never again sees the datum that stood before them**. This is the proved library for
//! Rust: a desk's part, with frames in and out, and the table of all desks at once.
//!
//! A [`Desk`] is one desk's state. Its program asks it to [`read`](Desk::read) and
//! [`write`](Desk::write); what cannot be done at the desk itself comes back as a [`Frame`] to
//! send. Frames that arrive go to [`serve`](Desk::serve) (a request, for a cell that this desk
//! keeps) or to [`bring`](Desk::bring) (the answer to what it asked), or to
//! [`receive`](Desk::receive), which looks which of the two it is. Nothing here sends, waits, locks
//! or allocates.
//!
//! # The whole case
//!
//! Cell 0 is a sheet's datum, kept by desk 1; cell 1 its coordinate, kept by desk 0. Desk 0's
//! answer comes late, after it has itself stored a coordinate that was measured by a newer datum.
//! It shows the blank that was answered, but does not hold it, and so asks again.
//!
//! ```
//! use cwmorlais::{Desk, Frame, Plan, Read, Refusal, Told, Write};
//!
//! fn asked(read: Read) -> Frame {
//!     let Read::Asked(request) = read else { panic!("{read:?}") };
//!     request
//! }
//!
//! # fn main() -> Result<(), Refusal> {
//! let plan = Plan::new(3, &[1, 0]); // three desks; a keeper for each of two cells
//! let mut desk0 = Desk::start(&plan, 0)?;
//! let mut desk1 = Desk::start(&plan, 1)?;
//! let mut desk2 = Desk::start(&plan, 2)?;
//!
//! // Desk 0 reads the datum. Its keeper answers, and the answer is slow.
//! let request = asked(desk0.read(0)?);
//! assert_eq!((request.to(), request.as_bytes()), (1, &[0, 5, 1, 1, 3, 0, 0][..]));
//! let late = desk1.serve(request.as_bytes())?.answer;
//!
//! // Meanwhile desk 2 writes the datum, and then the coordinate.
//! let Write::Asked(request) = desk2.write(0, 27)? else { panic!() };
//! let answer = desk1.serve(request.as_bytes())?.answer;
//! assert_eq!(desk2.bring(answer.as_bytes())?.told, Told::Stored(27));
//! let Write::Asked(request) = desk2.write(1, 500)? else { panic!() };
//! let answer = desk0.serve(request.as_bytes())?.answer;
//! let brought = desk2.bring(answer.as_bytes())?;
//! assert_eq!((brought.told, brought.dropped), (Told::Stored(500), 1));
//!
//! // Now the late answer arrives: blank, as it was when it was asked.
//! assert_eq!(desk0.bring(late.as_bytes())?.told, Told::Blank);
//! assert_eq!(desk0.read(1)?, Read::Shown(500));
//!
//! // Beside that coordinate the old blank is not shown again: the desk asks.
//! let request = asked(desk0.read(0)?);
//! let answer = desk1.serve(request.as_bytes())?.answer;
//! assert_eq!(desk0.bring(answer.as_bytes())?.told, Told::Shown(27));
//! assert_eq!(desk0.read(0)?, Read::Shown(27));
//! # Ok(())
//! # }
//! ```
//!
//! # What is proved, and what is not
//!
//! The functions behind this module, in [`sys`], are proved to do what `docs/PROMISES.md` says on
//! every input. This module is not: it turns codes into [`Refusal`]s and messages into frames. Its
//! tests hold both to an independent twin of the rules.

#![deny(unsafe_code)]
#![warn(missing_docs)]

mod desk;
mod frame;
mod plan;
mod refusal;
// The one place with `unsafe`: what is declared there is C's, and Rust cannot see it.
#[allow(unsafe_code)]
pub mod sys;
mod table;

pub use desk::{Brought, Desk, Read, Received, Served, Told, Write};
pub use frame::{read_frame, write_frame, Frame, FRAME_BYTES};
pub use plan::Plan;
pub use refusal::Refusal;
pub use sys::{Clock, Message};
pub use table::{Done, Event, Table};

/// The most desks a tray can have.
pub const DESKS: usize = 8;
/// The most cells a tray can have.
pub const CELLS: usize = 32;

/// The example of `rust/README.md` compiles.
#[cfg(doctest)]
#[doc = include_str!("../../README.md")]
struct Readme;
