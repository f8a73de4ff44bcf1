//! Rates the capacity of a road junction by Intersection Capacity Utilization 2003.
//!
//! Enter a junction with [`Entries`], rate it with [`Sheet::fill`], correct it with [`Sheet::amend`]; a
//! [`PointSheet`] does the same for a single point interchange. [`diamond`] rates an interchange of two
//! junctions, [`open`] keeps the sites of several offices apart in one study, [`study`] keeps many
//! junctions in one file. The work is done by a proved library; this crate gives its lists of numbers
//! names and types.

#![deny(unsafe_code)]

pub mod diamond;
mod entries;
pub mod open;
mod refusal;
mod sheet;
pub mod study;
#[allow(unsafe_code)]
mod sys;

pub use entries::{Approach, Entries, Entry, LaneFactor, Turn};
pub use refusal::Refusal;
pub use sheet::{Flow, Junction, Kind, Pair, Phasing, Point, PointSheet, Sheet, SheetOf};
