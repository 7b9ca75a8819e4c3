//! A register of peptidoforms: lines in ProForma 2.1 notation, read, written, placed and weighed by a proved library.
//!
//! ```
//! use hwemiduk::Peptidoform;
//!
//! let p: Peptidoform = "[+1]^2?ac".parse()?;
//! assert_eq!(p.to_string(), "[+1]^2?AC");
//! assert_eq!(p.total(), Ok(2_000_000));
//! let placements: Vec<_> = p.placements().map(|placement| placement.to_vec()).collect();
//! assert_eq!(placements, [[1, 2]]);
//! # Ok::<(), hwemiduk::Refusal>(())
//! ```
//!
//! A line that is refused gives a [`Refusal`]: its number, its place in the line, counted from 0, and its words.
//!
//! ```
//! let refusal = hwemiduk::Peptidoform::read(b"A[U:35]").unwrap_err();
//! assert_eq!((refusal.number(), refusal.place()), (9, 2));
//! assert_eq!(refusal.show(b"A[U:35]").to_string(), "9 at 2: prefix U or M with a name of digits only\nA[U:35]\n  ^");
//! ```
//!
//! Totals, shifts and ledgers are of the modifications only: the residues' own masses are not in them. Only stated masses enter them. One behind `Obs` is measured: a
//! modification with only such a mass counts as one without, and [`Bracket::mass`] tells which it is.
//!
//! ```
//! use hwemiduk::{Mass, Missing, Peptidoform};
//!
//! let p: Peptidoform = "A[Obs:+1]".parse()?;
//! assert_eq!(p.total(), Err(Missing { count: 1 }));
//! assert_eq!(p.brackets()[0].mass, Mass::Measured(1_000_000));
//! # Ok::<(), hwemiduk::Refusal>(())
//! ```
//!
//! A register of entries is kept in [`Blocks`].
//!
//! [`lent`] has the library's own calls, over slices that the caller lends: it takes no heap, and needs no `std` (`default-features = false`).
#![cfg_attr(not(feature = "std"), no_std)]
#![deny(missing_docs, unsafe_code)]

#[allow(unsafe_code)]
pub mod lent;
mod refusal;

#[cfg(feature = "std")]
mod blocks;
#[cfg(feature = "std")]
mod peptidoform;
#[cfg(feature = "std")]
mod tables;

pub use lent::{Mass, Position, Survey, SUGARS};
pub use refusal::{Missing, Refusal, Show, WORDS};

#[cfg(feature = "std")]
pub use blocks::{Blocks, Entry};
#[cfg(feature = "std")]
pub use peptidoform::{entry, Peptidoform, Placement, Placements};
#[cfg(feature = "std")]
pub use tables::{composition, Bracket, Content, Declaration, Floater, Key, Kind, Label, Number, Part, Place, Section};
